//! The walk.

use super::table::Raw;
use crate::faults::Fault;
use crate::resolver::{
    BENEATH, ELOOP, ENAMETOOLONG, ENOENT, ENOTDIR, EXDEV, IN_ROOT, NO_MAGICLINKS, NO_SYMLINKS,
    NO_XDEV, O_DIRECTORY, O_NOFOLLOW, O_PATH,
};

pub struct Walk<'a> {
    raw: Raw<'a>,
    handle: (u64, u64),
    top: (u64, u64),
    mark: bool,
    flags: u64,
    resolve: u64,
    here: (u64, u64),
    /// From `at` on, the text left to be read: the innermost body's, then
    /// the outer ones', a slash between them.
    text: Vec<u8>,
    at: usize,
    /// Where the innermost text ends.
    own: usize,
    /// Whether the given path ends in a slash.
    slash: bool,
    required: bool,
    components: u64,
    links: u64,
    /// Whether the walk has left the handle.
    left: bool,
}

fn only_slashes(text: &[u8]) -> bool {
    text.iter().all(|byte| *byte == b'/')
}

impl<'a> Walk<'a> {
    /// A walk that has yet to begin.
    pub fn new(
        raw: Raw<'a>,
        handle: (u64, u64),
        mark: bool,
        path: &[u8],
        (flags, resolve): (u64, u64),
    ) -> Walk<'a> {
        let text = if raw.has(Fault::FoldedText) { folded(path) } else { path.to_vec() };
        let slash = path.ends_with(b"/");
        Walk {
            top: (0, raw.mount(0)[0]),
            raw,
            handle,
            mark,
            flags,
            resolve,
            here: handle,
            own: text.len(),
            text,
            at: 0,
            slash,
            required: slash || flags & O_DIRECTORY != 0,
            components: 0,
            links: 0,
            left: false,
        }
    }

    /// Walks to the end; the answer.
    pub fn answer(mut self) -> [u64; 6] {
        match self.all() {
            Ok(()) => [0, 255, self.here.0, self.here.1, self.components, self.links],
            Err(errno) => [errno, 255, 0, 0, self.components, self.links],
        }
    }

    fn has(&self, fault: Fault) -> bool {
        self.raw.has(fault)
    }

    fn rest(&self) -> &[u8] {
        self.text.get(self.at..).unwrap_or(&[])
    }

    fn set(&self, bit: u64) -> bool {
        self.resolve & bit != 0
    }

    fn root(&self) -> (u64, u64) {
        if self.set(IN_ROOT) && !self.has(Fault::InRootIsTop) {
            self.handle
        } else {
            self.top
        }
    }

    /// The first refusal of a row.
    fn row<const N: usize>(&self, row: [(bool, u64); N]) -> Result<(), u64> {
        match row.iter().find(|(forbids, _)| *forbids) {
            Some((_, errno)) => Err(*errno),
            None => Ok(()),
        }
    }

    /// The row of Start, Escape and Jump without NO_XDEV.
    fn outward(&self, swapped: bool) -> Result<(), u64> {
        let mark = (self.mark, ENOENT);
        let beneath = (self.set(BENEATH), EXDEV);
        if swapped {
            self.row([beneath, mark])
        } else {
            self.row([mark, beneath])
        }
    }

    fn cross(&self) -> Result<(), u64> {
        self.row([(self.set(NO_XDEV), EXDEV)])
    }

    fn all(&mut self) -> Result<(), u64> {
        if self.rest().first() == Some(&b'/') {
            if !(self.set(IN_ROOT) && self.has(Fault::NoStartInRoot)) {
                let met = self.outward(false);
                let counted = met == Err(EXDEV) && self.has(Fault::StartCounted);
                self.components += u64::from(counted);
                met?;
            }
            let elsewhere = self.root().0 != self.handle.0;
            if self.has(Fault::NoXdevAtStart) && self.set(NO_XDEV) && elsewhere {
                return Err(EXDEV);
            }
            self.here = if self.has(Fault::StartAtTop) { self.top } else { self.root() };
        }
        while !only_slashes(self.rest()) {
            if self.raw.kind(self.here.1) != 1 {
                self.components += u64::from(self.has(Fault::NotDirectoryCounted));
                return Err(ENOTDIR);
            }
            self.left |= self.here != self.handle;
            self.one()?;
        }
        let kind = self.raw.kind(self.here.1);
        let link = kind > 2 && self.flags & O_PATH == 0;
        if link && self.has(Fault::LinkBeforeDirectory) {
            Err(ELOOP)
        } else if self.required && kind != 1 {
            Err(ENOTDIR)
        } else if link {
            Err(ELOOP)
        } else {
            Ok(())
        }
    }

    /// Takes the next component off the text.
    fn take(&mut self) -> Vec<u8> {
        let bytes = self.rest().iter().copied();
        let name: Vec<u8> =
            bytes.skip_while(|byte| *byte == b'/').take_while(|byte| *byte != b'/').collect();
        let slashes = self.rest().iter().take_while(|byte| **byte == b'/').count();
        self.at += slashes + name.len();
        self.components += 1;
        name
    }

    fn one(&mut self) -> Result<(), u64> {
        let name = self.take();
        if name == b"." {
            if self.has(Fault::DotEnters) {
                return self.stand(self.here.1);
            }
            return Ok(());
        }
        if name == b".." {
            return self.dot_dot();
        }
        if let Err(errno) = self.look(&name) {
            self.components -= u64::from(self.has(Fault::RefusedNameUncounted));
            return Err(errno);
        }
        let node = self.named(&name).unwrap_or(0);
        let own = self.text.get(self.at..self.own).unwrap_or(self.rest());
        let last =
            only_slashes(self.rest()) || (self.has(Fault::LastInOwnText) && only_slashes(own));
        let nofollow =
            self.flags & O_NOFOLLOW != 0 && (!self.slash || self.has(Fault::NofollowBeatsSlash));
        match self.raw.kind(node) {
            3 | 4 if last && nofollow => {
                if self.has(Fault::NoSymlinksUnfollowed) && self.set(NO_SYMLINKS) {
                    return Err(ELOOP);
                }
                self.here.1 = node;
                Ok(())
            }
            3 | 4 => self.link(node, last),
            _ => self.stand(node),
        }
    }

    /// Whether a name can be stepped to.
    fn look(&self, name: &[u8]) -> Result<(), u64> {
        if name.len() > 255 && !self.has(Fault::LongNameAbsent) {
            Err(ENAMETOOLONG)
        } else if self.named(name).is_none() {
            Err(ENOENT)
        } else {
            Ok(())
        }
    }

    fn named(&self, name: &[u8]) -> Option<u64> {
        let first = self.raw.first(self.here.1);
        let count = self.raw.count(self.here.1) + u64::from(self.has(Fault::EntryBehind));
        let end = (first + count).min(self.raw.entries);
        (first..end)
            .map(|entry| self.raw.entry(entry))
            .find(|(offset, length, _)| {
                let found = self.raw.part(*offset, *length);
                found == name || (self.has(Fault::NamePrefix) && found.starts_with(name))
            })
            .map(|(_, _, node)| node)
    }

    fn dot_dot(&mut self) -> Result<(), u64> {
        let at_handle = self.here == self.handle
            || (self.has(Fault::HandleByNode) && self.here.1 == self.handle.1);
        let unseen = (self.set(IN_ROOT) && self.has(Fault::NoEscapeInRoot))
            || (self.left && self.has(Fault::EscapeOnce));
        if at_handle && !unseen {
            self.outward(self.has(Fault::EscapeRowSwapped))?;
        }
        if self.here == self.root() || self.here == self.top {
            return Ok(());
        }
        let [root, parent, point, _] = self.raw.mount(self.here.0);
        if self.here.1 == root && !self.has(Fault::RootsParent) {
            if !self.has(Fault::ClimbNotMet) {
                self.cross()?;
            }
            self.here = (parent, point);
        }
        let parent = self.raw.parent(self.here.1);
        if self.has(Fault::ParentNotEntered) {
            self.here.1 = parent;
            return Ok(());
        }
        self.stand(parent)
    }

    /// Stands on a node of the current mount and enters a mount there.
    fn stand(&mut self, node: u64) -> Result<(), u64> {
        self.here.1 = node;
        if let Some(mount) = self.raw.cover(self.here.0, node) {
            self.cross()?;
            self.here = (mount, self.raw.mount(mount)[0]);
        }
        Ok(())
    }

    fn link(&mut self, node: u64, last: bool) -> Result<(), u64> {
        let most = match self.raw.fault {
            Some(Fault::FortyFirstLink) => 41,
            Some(Fault::LinksByNodes) => self.raw.nodes.min(40),
            _ => 40,
        };
        let late = self.has(Fault::LimitAfterEvents);
        if self.links >= most && !late {
            return Err(ELOOP);
        }
        let early = self.has(Fault::CountedAtEvent);
        self.links += u64::from(early);
        let is_magic = self.raw.kind(node) == 4;
        let swapped = is_magic && self.has(Fault::MagicBeforeLink);
        if !swapped {
            self.link_row()?;
        }
        let over = late && self.links >= most;
        let counts = if is_magic {
            self.magic(node, over)?;
            !self.has(Fault::MagicUncounted)
        } else {
            let body = self.raw.part(self.raw.first(node), self.raw.count(node));
            self.jump(body)?;
            if over {
                return Err(ELOOP);
            }
            self.open(body, last);
            !(self.has(Fault::SlashBodyUncounted) && only_slashes(body))
        };
        self.links += u64::from(counts && !early);
        Ok(())
    }

    /// Puts a body before the text left to be read.
    fn open(&mut self, body: &[u8], last: bool) {
        if self.has(Fault::RequirementDropped) && last {
            self.required = body.ends_with(b"/") || self.slash || self.flags & O_DIRECTORY != 0;
        }
        if body.ends_with(b"/") && (last || self.has(Fault::RequirementSpread)) {
            self.required = true;
        }
        let mut text = body.to_vec();
        text.push(b'/');
        text.extend(self.rest());
        self.text = text;
        self.at = 0;
        self.own = body.len();
    }

    fn link_row(&self) -> Result<(), u64> {
        self.row([(self.set(NO_SYMLINKS), ELOOP)])
    }

    fn magic(&mut self, node: u64, over: bool) -> Result<(), u64> {
        let target = self.raw.target(node);
        if self.set(IN_ROOT) && self.has(Fault::InRootBeforeRow) {
            return Err(EXDEV);
        }
        self.magic_row(target)?;
        if self.has(Fault::MagicBeforeLink) {
            self.link_row()?;
        }
        if over {
            return Err(ELOOP);
        }
        if self.set(IN_ROOT) && !self.has(Fault::InRootLetsMagic) {
            return Err(EXDEV);
        }
        if self.has(Fault::MagicFileHere) && self.raw.kind(target.1) == 2 {
            self.here.1 = target.1;
        } else {
            self.here = target;
        }
        if self.has(Fault::MagicEnters) {
            self.stand(target.1)?;
        }
        Ok(())
    }

    fn magic_row(&self, target: (u64, u64)) -> Result<(), u64> {
        let from = if self.has(Fault::MagicFromRoot) { self.root() } else { self.here };
        let mark = (self.mark && !self.has(Fault::MarkLetsMagic), ENOENT);
        let no_magic = (self.set(NO_MAGICLINKS), ELOOP);
        let no_xdev = (self.set(NO_XDEV) && target.0 != from.0, EXDEV);
        let beneath = (self.set(BENEATH) && !self.has(Fault::BeneathLetsMagic), EXDEV);
        self.row(match self.raw.fault {
            Some(Fault::MagicRowSwapped) => [no_magic, mark, no_xdev, beneath],
            Some(Fault::MagicXdevFirst) => [mark, no_xdev, no_magic, beneath],
            _ => [mark, no_magic, no_xdev, beneath],
        })
    }

    /// Where the body is read from.
    fn jump(&mut self, body: &[u8]) -> Result<(), u64> {
        if !body.starts_with(b"/") {
            if self.has(Fault::BodyFromRoot) {
                self.here = self.root();
            }
            return Ok(());
        }
        match self.outward(self.has(Fault::JumpRowSwapped)) {
            Err(ENOENT) if self.has(Fault::MarkLetsJump) => {}
            Err(EXDEV) if self.has(Fault::BeneathLetsJump) => {}
            met => met?,
        }
        let current = if self.has(Fault::JumpFromHandle) { self.handle.0 } else { self.here.0 };
        let leaves = current != self.root().0 || self.has(Fault::JumpNoXdev);
        self.row([(self.set(NO_XDEV) && leaves, EXDEV)])?;
        self.here = if self.has(Fault::JumpToTop) { self.top } else { self.root() };
        Ok(())
    }
}

/// A path with every "name/.." taken out, the fault of that name.
fn folded(path: &[u8]) -> Vec<u8> {
    let mut kept: Vec<&[u8]> = Vec::new();
    for part in path.split(|byte| *byte == b'/') {
        let named =
            kept.last().is_some_and(|last| !last.is_empty() && *last != b"." && *last != b"..");
        if part == b".." && named {
            kept.pop();
        } else {
            kept.push(part);
        }
    }
    kept.join(&b'/')
}
