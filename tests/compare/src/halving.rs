//! The lookup of a name in one directory, written from the words of request 2026-02 alone,
//! to be compared with the library.
//!
//! What is found comes from going through all the names; the halving itself only counts.

use crate::resolver::{accept, Table, DIRECTORY, EBADF, ENOENT, ENOTDIR, EUCLEAN};
use std::cmp::Ordering;

/// errno (0: found), entry, node that it names, names compared.
pub type Looked = [u64; 4];

/// A refusal, which tells no entry and no node.
fn refused(errno: u64, compared: u64) -> Looked {
    [errno, 0, 0, compared]
}

pub fn lookup(image: &[u8], node: u64, name: &[u8]) -> Looked {
    lookup_in(accept(image).ok().as_ref(), node, name)
}

/// The same; `table` is what the image holds, if that is accepted.
pub fn lookup_in(table: Option<&Table>, node: u64, name: &[u8]) -> Looked {
    let Some(table) = table else {
        return refused(EUCLEAN, 0);
    };
    let Some(directory) = table.node(node) else {
        return refused(EBADF, 0);
    };
    if directory.kind != DIRECTORY {
        return refused(ENOTDIR, 0);
    }
    let entries = table.entries_of(directory);
    let names: Vec<&[u8]> = entries.iter().filter_map(|entry| table.name(entry)).collect();
    let compared = compared(&names, name);
    let mut numbered = (directory.first..).zip(entries);
    match numbered.find(|(_, entry)| table.name(entry) == Some(name)) {
        Some((number, entry)) => [0, number, entry.node, compared],
        None => refused(ENOENT, compared),
    }
}

/// How many of the names "this halving compared".
fn compared(names: &[&[u8]], name: &[u8]) -> u64 {
    let mut left = names;
    let mut compared = 0;
    while !left.is_empty() {
        // "the middle of the names left (of two, the earlier)"
        let (before, from_middle) = left.split_at((left.len() - 1) / 2);
        let (middle, after) = (from_middle[0], &from_middle[1..]);
        compared += 1;
        match name.cmp(middle) {
            // "stop if it is equal"
            Ordering::Equal => break,
            // "else keep the side that can hold the name"
            Ordering::Less => left = before,
            Ordering::Greater => left = after,
        }
    }
    compared
}

#[cfg(test)]
mod tests;
