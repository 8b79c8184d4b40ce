//! Names, and which node has which.

use data::dice::Dice;
use data::image::Tree;

/// Few names, so that the same ones stand in many directories and a wrong
/// step still finds something.
const COMMON: [&str; 5] = ["a", "b", "c", "d", "e"];
const ODD: [&[u8]; 12] =
    [b"ab", b"a.", b"...", b"..a", b".a", b"-", b" ", b"\x80", b"\xff", b"\x01", b"\x7f\x80", b"A"];

pub fn name(dice: &mut Dice) -> Vec<u8> {
    match dice.below(100) {
        0..=79 => dice.pick(&COMMON).as_bytes().to_vec(),
        80..=97 => dice.pick(&ODD).to_vec(),
        98 => long_name(dice, 255),
        _ => long_name(dice, 254),
    }
}

pub fn long_name(dice: &mut Dice, length: usize) -> Vec<u8> {
    let mut name = vec![b'n'; length];
    if let Some(last) = name.last_mut() {
        *last = dice.pick(b"no");
    }
    name
}

/// Parts parted by slashes, mostly one.
pub fn join(dice: &mut Dice, parts: &[Vec<u8>]) -> Vec<u8> {
    let mut text = Vec::new();
    for (index, part) in parts.iter().enumerate() {
        if index > 0 {
            text.extend(slashes(dice));
        }
        text.extend(part);
    }
    text
}

pub fn slashes(dice: &mut Dice) -> &'static [u8] {
    match dice.below(16) {
        0 => b"//",
        1 => b"///",
        _ => b"/",
    }
}

/// Directories are named in their parents, or not at all; other nodes
/// anywhere, some of them twice.
pub fn name_nodes(dice: &mut Dice, tree: &mut Tree) {
    let directories = tree.directories();
    let entries = directories.iter().filter_map(|number| tree.entries_of(*number)).flatten();
    let named: Vec<usize> = entries.map(|entry| entry.node).collect();
    for node in 0..tree.nodes.len() {
        if named.contains(&node) {
            continue;
        }
        let parent = tree.parent_of(node);
        let times = match tree.is_directory(node) {
            true if parent == node => 0,
            true => dice.pick(&[0, 1, 1, 1, 1, 1, 1, 1, 1, 2]),
            false => dice.pick(&[0, 1, 1, 1, 1, 1, 1, 1, 2, 2]),
        };
        for _ in 0..times {
            let directory = if tree.is_directory(node) { parent } else { dice.pick(&directories) };
            // A taken name is tried again with others.
            let mut tries = 0..8;
            while tries.next().is_some() && !tree.name(directory, name(dice), node) {}
        }
    }
}
