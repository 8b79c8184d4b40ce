//! Handles.

use crate::resolver::{Place, Table, FILE, LINK, MAGIC};
use crate::tried::Kind;
use data::dice::Dice;

/// A handle that passes its checks, often in a directory that has names.
pub fn good_handle(dice: &mut Dice, table: &Table) -> Place {
    for _ in 0..24 {
        let mount = dice.below(table.mounts.len()) as u64;
        let node = if dice.percent(30) {
            table.mount(mount).map_or(0, |mount| mount.root)
        } else {
            dice.below(table.nodes.len()) as u64
        };
        let place = Place { mount, node };
        let empty = table.node(node).is_none_or(|node| node.count == 0);
        if table.handle_errno(place).is_none() && !(empty && dice.percent(85)) {
            return place;
        }
    }
    table.top()
}

/// A handle that one of the checks refuses, if the table has such; each of them alike often.
pub fn bad_handle(dice: &mut Dice, table: &Table) -> Place {
    let good = good_handle(dice, table);
    let mounts = table.mounts.len() as u64;
    let nodes = table.nodes.len() as u64;
    let bad = match dice.below(10) {
        0 => Some(Place { mount: beyond(dice, mounts, good.mount), ..good }),
        1 => Some(Place { node: beyond(dice, nodes, good.node), ..good }),
        2 | 3 => covered(dice, table),
        4 | 5 => outside(dice, table),
        6 => of_kind(dice, table, FILE),
        7 => of_kind(dice, table, LINK),
        8 => of_kind(dice, table, MAGIC),
        // Both wrong, or wrong in two ways; or good after all.
        _ => {
            let mount = dice.pick(&[mounts, mounts - 1, u64::MAX]);
            Some(Place { mount, node: dice.below(table.nodes.len() + 1) as u64 })
        }
    };
    bad.unwrap_or(Place { node: beyond(dice, nodes, good.node), ..good })
}

/// A number out of range, among them those that are good if cut to fewer bits.
fn beyond(dice: &mut Dice, limit: u64, good: u64) -> u64 {
    match dice.below(7) {
        0 | 1 => limit,
        2 => limit + dice.below(9) as u64,
        3 => dice.pick(&[1 << 16, 1 << 32, 1 << 63]),
        4 => good + (1 << 16),
        5 => good + (1 << 32),
        _ => u64::MAX - (dice.roll() >> dice.pick(&[8, 32, 63])),
    }
}

/// A node of this kind, in any mount.
fn of_kind(dice: &mut Dice, table: &Table, kind: u64) -> Option<Place> {
    let nodes = (0..).zip(&table.nodes).filter(|(_, node)| node.kind == kind);
    let nodes: Vec<u64> = nodes.map(|(number, _)| number).collect();
    let node = *dice.choose(&nodes)?;
    Some(Place { mount: dice.below(table.mounts.len()) as u64, node })
}

/// A directory that is not under the root of the mount.
fn outside(dice: &mut Dice, table: &Table) -> Option<Place> {
    let mut tries = (0..12).map(|_| {
        let mount = dice.below(table.mounts.len()) as u64;
        Place { mount, node: dice.below(table.nodes.len()) as u64 }
    });
    tries.find(|place| Kind::of(table, *place) == Kind::Outside)
}

/// The place that a mount covers.
fn covered(dice: &mut Dice, table: &Table) -> Option<Place> {
    let mount = 1 + dice.below(table.mounts.len().saturating_sub(1));
    let mount = table.mounts.get(mount)?;
    Some(Place { mount: mount.parent, node: mount.point })
}
