//! Objects by their trees and the names that lead to them.

use crate::text::Quoted;
use std::fmt;

/// A path: the name of a tree with its colon, or nothing for the main tree; then each name behind
/// a slash. So what has no name has no slash, and the path of a directory is that of all it
/// names, up to the last slash.
#[derive(Clone, Debug, PartialEq, Eq, Hash)]
pub(super) struct Object {
    bytes: Vec<u8>,
    /// Else the bytes are as they were given.
    is_path: bool,
}

impl Object {
    /// Repeated slashes count as one, and those at the end as none.
    pub(super) fn of(path: &[u8]) -> Self {
        let Some((tree, names)) = split(path) else {
            return Object { bytes: path.to_vec(), is_path: false };
        };
        let names = names.split(|byte| *byte == b'/').filter(|name| !name.is_empty());
        let top = Object { bytes: tree.to_vec(), is_path: true };
        names.fold(top, |object, name| object.below(name))
    }

    pub(super) fn is_path(&self) -> bool {
        self.is_path
    }

    /// What a directory names so.
    pub(super) fn below(mut self, name: &[u8]) -> Self {
        self.bytes.push(b'/');
        self.bytes.extend(name);
        self
    }

    /// The path of the directory that names it, and the name; none of what has no name.
    pub(super) fn named(&self) -> Option<(&[u8], &[u8])> {
        let slash = self.bytes.iter().rposition(|byte| *byte == b'/')?;
        Some((&self.bytes[..slash], &self.bytes[slash + 1..]))
    }

    pub(super) fn bytes(&self) -> &[u8] {
        &self.bytes
    }
}

impl fmt::Display for Object {
    fn fmt(&self, f: &mut fmt::Formatter) -> fmt::Result {
        match self.is_path {
            true => Path(&self.bytes).fmt(f),
            false => Quoted(&self.bytes).fmt(f),
        }
    }
}

/// The bytes of an object as they are written in a manifest.
pub(super) struct Path<'a>(pub &'a [u8]);

impl fmt::Display for Path<'_> {
    fn fmt(&self, f: &mut fmt::Formatter) -> fmt::Result {
        match self.0 {
            [] => f.write_str("/"),
            path => Quoted(path).fmt(f),
        }
    }
}

/// A path as it is told: that of the main tree's top is a slash.
pub(super) fn told(path: &[u8]) -> Vec<u8> {
    match path {
        [] => b"/".to_vec(),
        path => path.to_vec(),
    }
}

/// The tree's name with its colon, and the names behind it.
fn split(path: &[u8]) -> Option<(&[u8], &[u8])> {
    let slash = path.iter().position(|byte| *byte == b'/').unwrap_or(path.len());
    match path.split_at(slash) {
        ([], []) => None,
        ([], names) => Some((&[], names)),
        (tree @ [name @ .., b':'], names) if is_name(name) => Some((tree, names)),
        _ => None,
    }
}

/// Whether this can be the name of a tree or a mount.
pub(super) fn is_name(name: &[u8]) -> bool {
    let is_part = |byte: &u8| byte.is_ascii_alphanumeric() || b"-_.".contains(byte);
    !name.is_empty() && name.iter().all(is_part)
}
