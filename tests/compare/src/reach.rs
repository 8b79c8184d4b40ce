//! The part of a table that lies within a handle's reach, written from RULES 20.2 alone.

use crate::resolver::{Place, Table, DIRECTORY};
use std::collections::BTreeSet;

/// The places reachable from a handle, its own first of all.
pub fn reach(table: &Table, handle: Place) -> BTreeSet<Place> {
    let mut reached = BTreeSet::new();
    let mut waiting = vec![handle];
    while let Some(place) = waiting.pop() {
        if reached.insert(place) {
            waiting.extend(beyond(table, place));
        }
    }
    reached
}

/// Where a reachable place leads: "going down names, each from an uncovered place, and entering
/// mounts, each from the place that it covers".
fn beyond(table: &Table, place: Place) -> Vec<Place> {
    if let Some((mount, record)) = table.covering(place) {
        return vec![Place { mount, node: record.root }];
    }
    let directory = table.node(place.node).filter(|node| node.kind == DIRECTORY);
    let entries = directory.map_or(&[][..], |node| table.entries_of(node));
    entries.iter().map(|entry| Place { node: entry.node, ..place }).collect()
}

#[cfg(test)]
mod tests;
