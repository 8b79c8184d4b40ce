//! Lookups: of names that a directory has, and of names near to them that it has not.

use super::damage::damage;
use super::listings::listing;
use super::names;
use super::tables::table;
use crate::lookup::Lookup;
use crate::resolver::{accept, Node, Table, DIRECTORY};
use data::dice::Dice;

/// So many lookups in one table.
pub fn lookups(dice: &mut Dice, many: usize) -> Vec<Lookup> {
    let image = if dice.percent(25) { table(dice) } else { listing(dice) };
    let table = accept(&image).ok();
    let mut asked = match &table {
        Some(table) if dice.percent(40) => throughout(dice, table, many),
        _ => Vec::new(),
    };
    while asked.len() < many {
        asked.push(question(dice, table.as_ref()));
    }
    let mut lookup = |(node, name)| {
        let image = if dice.percent(3) { damage(dice, &image) } else { image.clone() };
        Lookup { image, node, name }
    };
    asked.into_iter().map(&mut lookup).collect()
}

/// The names of a directory.
fn names_of<'a>(table: &Table<'a>, node: u64) -> Vec<&'a [u8]> {
    let entries = table.node(node).map_or(&[][..], |directory| table.entries_of(directory));
    entries.iter().filter_map(|entry| table.name(entry)).collect()
}

fn directories<'a>(table: &'a Table) -> impl Iterator<Item = (u64, &'a Node)> {
    (0..).zip(&table.nodes).filter(|(_, node)| node.kind == DIRECTORY)
}

/// Every name of a small directory, and one that is absent before, between and after them.
fn throughout(dice: &mut Dice, table: &Table, most: usize) -> Vec<(u64, Vec<u8>)> {
    let is_small = |(_, node): &(u64, &Node)| 2 * node.count < most as u64;
    let small: Vec<u64> = directories(table).filter(is_small).map(|(number, _)| number).collect();
    let Some(directory) = dice.choose(&small).copied() else {
        return Vec::new();
    };
    let mut asked = vec![Vec::new()];
    for name in names_of(table, directory) {
        // No name holds a zero byte, and nothing stands between these two.
        asked.extend([name.to_vec(), [name, b"\0"].concat()]);
    }
    asked.into_iter().map(|name| (directory, name)).collect()
}

/// A node and a name, over a table that is accepted or not.
pub fn question(dice: &mut Dice, table: Option<&Table>) -> (u64, Vec<u8>) {
    let Some(table) = table else {
        return (dice.pick(&[0, 0, 1, 4095, 4096, 1 << 16, u64::MAX]), odd(dice));
    };
    let directory = directory(dice, table);
    let name = name(dice, &names_of(table, directory));
    let node = if dice.percent(8) { other_node(dice, table, directory) } else { directory };
    (node, name)
}

/// A directory, mostly one with many names.
fn directory(dice: &mut Dice, table: &Table) -> u64 {
    let numbers: Vec<u64> = directories(table).map(|(number, _)| number).collect();
    let any = dice.pick(&numbers);
    let most = directories(table).max_by_key(|(_, node)| node.count);
    match most {
        Some((number, _)) if dice.percent(55) => number,
        _ => any,
    }
}

/// No directory, or out of range; among these numbers some that are good if cut.
fn other_node(dice: &mut Dice, table: &Table, directory: u64) -> u64 {
    let others: Vec<u64> = (0..)
        .zip(&table.nodes)
        .filter(|(_, node)| node.kind != DIRECTORY)
        .map(|(n, _)| n)
        .collect();
    let nodes = table.nodes.len() as u64;
    match dice.below(10) {
        0..=3 => dice.choose(&others).copied().unwrap_or(nodes),
        4 => nodes,
        5 => nodes + dice.below(9) as u64,
        6 => dice.pick(&[65_535, 65_536, 1 << 32, u64::MAX]),
        7 => directory + (1 << 16),
        8 => directory + (1 << 32),
        _ => directory + (1 << 63),
    }
}

fn name(dice: &mut Dice, names: &[&[u8]]) -> Vec<u8> {
    let Some(one) = one_of(dice, names) else {
        return odd(dice);
    };
    match dice.below(100) {
        0..=39 => one.to_vec(),
        40..=79 => near(dice, one),
        80..=87 => outside(dice, names),
        88..=93 => long(dice, one),
        94..=96 => names::name(dice),
        _ => odd(dice),
    }
}

/// A name of those: first, last, a middle one, or any.
fn one_of<'a>(dice: &mut Dice, names: &[&'a [u8]]) -> Option<&'a [u8]> {
    let at = match dice.below(10) {
        0 => 0,
        1 | 2 => names.len().saturating_sub(1),
        3 => names.len().saturating_sub(1) / 2,
        4 => names.len() / 2,
        _ => dice.below(names.len()),
    };
    names.get(at).copied()
}

/// Bytes that are low, high, or in no name.
const BYTES: &[u8] = b"\x01a\x7f\x80\xff./\0";

/// A name cut short, made longer, or with a byte changed.
fn near(dice: &mut Dice, name: &[u8]) -> Vec<u8> {
    let mut near = name.to_vec();
    let last = near.len() - 1;
    let inside = dice.below(near.len());
    let at = dice.pick(&[0, last, last, inside]);
    match dice.below(10) {
        0 | 1 => near.truncate(last),
        2 | 3 => near.push(dice.pick(BYTES)),
        4 => near.truncate(at),
        5 => near.insert(at, dice.pick(BYTES)),
        6 => near[at] = dice.pick(BYTES),
        7 => near[at] ^= 0x80,
        8 => near[at] = near[at].wrapping_add(1),
        _ => near[at] = near[at].wrapping_sub(1),
    }
    near
}

/// A name before all of them, or after.
fn outside(dice: &mut Dice, names: &[&[u8]]) -> Vec<u8> {
    let first = names.first().copied().unwrap_or_default();
    let last = names.last().copied().unwrap_or_default();
    match dice.below(6) {
        0 => vec![1],
        1 => first[..first.len().saturating_sub(1)].to_vec(),
        2 => [b"\0", first].concat(),
        3 => vec![0xFF; dice.from(1, 9)],
        4 => [last, b"\x01"].concat(),
        _ => [last, b"\xff"].concat(),
    }
}

/// A name made as long as names can be, or longer; also such that its length is right again
/// if it is cut to fewer bits.
fn long(dice: &mut Dice, name: &[u8]) -> Vec<u8> {
    let length = match dice.below(40) {
        0..=9 => 255,
        10..=19 => 256,
        20..=25 => 5000,
        26..=30 => dice.from(254, 260),
        39 => name.len() + (1 << 16),
        _ => name.len() + (1 << 8),
    };
    let mut long = name.to_vec();
    long.resize(length, dice.pick(b"n\x01\xff/\0"));
    long
}

/// What can be no name, and what seldom is one.
fn odd(dice: &mut Dice) -> Vec<u8> {
    match dice.below(10) {
        0 | 1 => Vec::new(),
        2 | 3 => b".".to_vec(),
        4 | 5 => b"..".to_vec(),
        6 => dice.pick(&["/", "a/", "/a", "./", "\0", "a\0"]).into(),
        7 => long(dice, b"n"),
        _ => (0..dice.below(20)).map(|_| dice.roll() as u8).collect(),
    }
}
