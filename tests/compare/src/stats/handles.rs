//! How often handles of each kind occurred, good or bad, with what decides whether they are
//! checked.

use super::{errno_name, line};
use crate::resolver::{BENEATH, IN_ROOT};
#[cfg(test)]
use crate::resolver::{EBADF, ENOTDIR, EXDEV, NO_MAGICLINKS, NO_SYMLINKS, NO_XDEV};
use crate::tried::{Beginning, Kind, Tried};
use std::collections::BTreeMap;

#[cfg(test)]
const BAD: &[Kind] =
    &[Kind::OutOfRange, Kind::File, Kind::Link, Kind::MagicLink, Kind::Outside, Kind::Covered];

/// The mark and the scope, as they are told.
fn scope(mark: bool, resolve: u64) -> &'static str {
    match (resolve & (BENEATH | IN_ROOT), mark) {
        (0, false) => "no scope",
        (BENEATH, false) => "BENEATH",
        (_, false) => "IN_ROOT",
        (0, true) => "the mark",
        (BENEATH, true) => "the mark and BENEATH",
        (_, true) => "the mark and IN_ROOT",
    }
}

#[derive(Default)]
pub struct Handles {
    all: u64,
    /// By what it is, whether the path is absolute, and the scope.
    kinds: BTreeMap<(Kind, bool, &'static str), u64>,
    /// By the path, of bad handles that are checked and of such that are not.
    paths: BTreeMap<(Beginning, bool), u64>,
    /// The answers to absolute paths from bad handles.
    answers: BTreeMap<(&'static str, u64), u64>,
    /// The bits of resolve beside a bad handle that is not checked, and whether it was found.
    bits: BTreeMap<(u64, bool), u64>,
}

impl Handles {
    pub fn note(&mut self, tried: &Tried, errno: u64) {
        let Tried { handle, path, resolve, mark, is_checked } = *tried;
        let is_absolute = path != Beginning::Relative;
        let scope = scope(mark, resolve);
        self.all += 1;
        *self.kinds.entry((handle, is_absolute, scope)).or_default() += 1;
        if handle == Kind::Good {
            return;
        }
        *self.paths.entry((path, is_checked)).or_default() += 1;
        if is_absolute {
            *self.answers.entry((scope, errno)).or_default() += 1;
        }
        for bit in (0..5).map(|bit| 1 << bit).filter(|bit| !is_checked && resolve & bit != 0) {
            *self.bits.entry((bit, errno == 0)).or_default() += 1;
        }
    }

    /// What should occur in every run of some length and did not: handles of these kinds with
    /// absolute and relative paths, under each of these pairs of mark and scope.
    #[cfg(test)]
    fn missing(&self, kinds: &[Kind], scopes: &[(bool, u64)]) -> Vec<String> {
        let mut missing = Vec::new();
        for kind in kinds {
            for (mark, resolve) in scopes {
                let scope = scope(*mark, *resolve);
                let keys = [false, true].map(|is_absolute| (*kind, is_absolute, scope));
                let keys = keys.iter().filter(|key| !self.kinds.contains_key(key));
                missing.extend(keys.map(|key| format!("handle, absolute: {key:?}")));
            }
        }
        missing
    }

    /// The same of raw calls.
    #[cfg(test)]
    pub fn missing_in_calls(&self) -> Vec<String> {
        let scopes = [0, BENEATH, IN_ROOT].map(|scope| [(false, scope), (true, scope)]);
        let mut missing = self.missing(BAD, &scopes.concat());
        missing.extend(self.missing_paths());
        missing
    }

    /// The same of opens. Only a directory is ever marked.
    #[cfg(test)]
    pub fn missing_in_opens(&self) -> Vec<String> {
        let covered = [(false, BENEATH), (false, IN_ROOT), (true, 0)];
        let held = [Kind::File, Kind::Link, Kind::MagicLink, Kind::Covered];
        [self.missing(&held, &[(false, 0)]), self.missing(&[Kind::Covered], &covered)].concat()
    }

    #[cfg(test)]
    fn missing_paths(&self) -> Vec<String> {
        use Beginning::{ManySlashes, Relative, Slash, Slashes, Up};
        let absolute = [Slashes, Up, Slash, ManySlashes].map(|path| (path, false));
        let checked = absolute.map(|(path, _)| (path, true));
        let paths = [&absolute[..], &checked, &[(Relative, true)]].concat();
        let paths = paths.into_iter().filter(|path| !self.paths.contains_key(path));
        let bits = [NO_XDEV, NO_MAGICLINKS, NO_SYMLINKS].into_iter();
        let bits = bits.flat_map(|bit| [(bit, false), (bit, true)]).chain([(BENEATH, false)]);
        let bits = bits.filter(|bit| !self.bits.contains_key(bit));
        let refused = ["IN_ROOT", "the mark", "the mark and BENEATH", "the mark and IN_ROOT"];
        let refused = refused.into_iter().flat_map(|scope| [(scope, EBADF), (scope, ENOTDIR)]);
        let answers = refused.chain([("no scope", 0), ("no scope", 2), ("BENEATH", EXDEV)]);
        let answers = answers.filter(|answer| !self.answers.contains_key(answer));
        let told = paths.map(|path| format!("path, checked: {path:?}"));
        told.chain(bits.map(|bit| format!("bit, found: {bit:?}")))
            .chain(answers.map(|answer| format!("absolute, bad handle: {answer:?}")))
            .collect()
    }

    pub fn print(&self, what: &str) {
        println!("{what} that come to the handle, by what it is and how the path begins:");
        let mut kinds = BTreeMap::<_, u64>::new();
        for ((kind, is_absolute, _), count) in &self.kinds {
            *kinds.entry((kind, is_absolute)).or_default() += count;
        }
        for ((kind, is_absolute), count) in kinds {
            let path = if *is_absolute { "absolute" } else { "relative" };
            line(&format!("{kind:?}, {path}"), count, self.all);
        }
        println!("those with a bad handle, by the path:");
        for ((path, is_checked), count) in &self.paths {
            let checked = if *is_checked { "checked" } else { "not checked" };
            line(&format!("{path:?}, {checked}"), *count, self.all);
        }
        println!("those with a bad handle and an absolute path, by scope and answer:");
        for ((scope, errno), count) in &self.answers {
            line(&format!("{scope}: {}", errno_name(*errno)), *count, self.all);
        }
    }
}
