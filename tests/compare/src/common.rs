//! Whether two tables have a handle's part in common, written from RULES 20.4 alone.

use crate::reach::reach;
use crate::resolver::{Entry, Node, Place, Table, DIRECTORY, LINK};

/// Where two tables differ within a handle's part, and in what.
#[derive(Clone, Copy, Debug, PartialEq, Eq)]
pub struct Apart {
    pub place: Place,
    pub what: &'static str,
}

/// What may differ, as `Apart` and the statistics tell it.
pub const KIND: &str = "kind";
pub const MOUNT: &str = "mount on it";
pub const ROOT: &str = "root of the mount on it";
pub const COUNT: &str = "number of entries";
pub const NAME: &str = "name of an entry";
pub const NODE: &str = "node of an entry";
pub const BODY: &str = "body";

/// The first place that differs; none if the part is in common.
pub fn apart(first: &Table, second: &Table, handle: Place) -> Option<Apart> {
    reach(first, handle).into_iter().find_map(|place| {
        let what = difference(first, second, place)?;
        Some(Apart { place, what })
    })
}

/// Whether the part is in common, and the handle, good in the first table, good in the second too.
pub fn in_common(first: &Table, second: &Table, handle: Place) -> bool {
    second.handle_errno(handle).is_none() && apart(first, second, handle).is_none()
}

/// In what a place that is reachable in the first table differs in the second.
fn difference(first: &Table, second: &Table, place: Place) -> Option<&'static str> {
    let one = first.node(place.node)?;
    let Some(two) = second.node(place.node).filter(|two| two.kind == one.kind) else {
        return Some(KIND);
    };
    match (first.covering(place), second.covering(place)) {
        (None, None) if one.kind == DIRECTORY => entries((first, one), (second, two)),
        (None, None) if one.kind == LINK => (body(first, one) != body(second, two)).then_some(BODY),
        (None, None) => None,
        (Some((mount, one)), Some((other, two))) if mount == other => {
            (one.root != two.root).then_some(ROOT)
        }
        _ => Some(MOUNT),
    }
}

/// In what the entries of an uncovered directory differ.
fn entries((first, one): (&Table, &Node), (second, two): (&Table, &Node)) -> Option<&'static str> {
    let (ones, twos) = (first.entries_of(one), second.entries_of(two));
    if ones.len() != twos.len() {
        return Some(COUNT);
    }
    let beside = |(one, two): (&Entry, &Entry)| {
        if first.name(one) != second.name(two) {
            return Some(NAME);
        }
        (one.node != two.node).then_some(NODE)
    };
    ones.iter().zip(twos).find_map(beside)
}

fn body<'a>(table: &Table<'a>, link: &Node) -> Option<&'a [u8]> {
    table.text_part(link.first, link.count)
}

#[cfg(test)]
mod tests;
