//! A way to a place.

use crate::resolver::{Entry, Place, Table, DIRECTORY, MAGIC};
use std::collections::{BTreeSet, VecDeque};

/// A path that leads from mount 0's root to a place, by names and magic links; none if these do not
/// lead there. Of several it is one with the fewest components.
pub fn way_to(table: &Table, place: Place) -> Option<Vec<u8>> {
    let mut seen = BTreeSet::new();
    let mut waiting = VecDeque::from([(table.top(), b".".to_vec())]);
    while let Some((here, way)) = waiting.pop_front() {
        if here == place {
            return Some(way);
        }
        if !seen.insert(here) {
            continue;
        }
        let directory = table.node(here.node).filter(|node| node.kind == DIRECTORY);
        for entry in directory.map_or(&[][..], |node| table.entries_of(node)) {
            let (Some(next), Some(name)) = (behind(table, here, entry), table.name(entry)) else {
                continue;
            };
            waiting.push_back((next, [&way[..], name].join(&b'/')));
        }
    }
    None
}

/// Where an entry of the directory stood on leads, if it is no symbolic link.
fn behind(table: &Table, here: Place, entry: &Entry) -> Option<Place> {
    let named = table.node(entry.node)?;
    if named.kind == MAGIC {
        return Some(Place { mount: named.first, node: named.count });
    }
    let place = Place { node: entry.node, ..here };
    Some(match table.covering(place) {
        Some((mount, record)) => Place { mount, node: record.root },
        None if named.kind == DIRECTORY => place,
        None => return None,
    })
}
