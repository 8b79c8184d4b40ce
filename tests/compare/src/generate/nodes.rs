//! Nodes in several shapes, their names, mounts, targets and bodies mostly still
//! to come.

use super::bodies::long_body;
use super::mounts::add_mounts;
use super::names::{long_name, name_nodes};
use data::dice::Dice;
use data::image::Tree;

/// A directory below another or, with none, the top of a tree.
fn directory(tree: &mut Tree, parent: Option<usize>) -> usize {
    let parent = parent.unwrap_or(tree.nodes.len());
    tree.directory(parent)
}

/// A mixed handful of nodes.
pub fn small(dice: &mut Dice) -> Tree {
    let mut tree = Tree::default();
    if dice.percent(8) {
        tree.magic(0, 0);
    }
    for _ in 0..dice.from(2, 18) {
        let directories = tree.directories();
        match dice.below(100) {
            _ if directories.is_empty() && dice.percent(80) => tree.top(),
            0..=41 if directories.is_empty() || dice.percent(12) => tree.top(),
            0..=41 => directory(&mut tree, dice.choose(&directories).copied()),
            42..=57 => tree.file(),
            58..=85 => tree.link(b""),
            _ => tree.magic(0, 0),
        };
    }
    tree
}

/// A chain of directories; so many in a hundred hang below the last one, the
/// others anywhere.
fn chain(
    dice: &mut Dice,
    length: usize,
    share: usize,
    mut beside: impl FnMut(&mut Dice, &mut Tree),
) -> Tree {
    let mut tree = Tree::default();
    let mut below = tree.top();
    for _ in 0..length {
        let parent = if dice.percent(share) {
            Some(below)
        } else {
            dice.choose(&tree.directories()).copied()
        };
        below = directory(&mut tree, parent);
        beside(dice, &mut tree);
    }
    tree
}

/// Directories within directories, with a little strewn in.
pub fn deep(dice: &mut Dice) -> Tree {
    if dice.one_in(8) {
        return tall(dice);
    }
    let length = dice.from(3, 25);
    chain(dice, length, 90, |dice, tree| strew(dice, tree, 25))
}

/// So deep, with so many mounts and magic links, that following parents for
/// each of them takes far more steps than there are nodes.
fn tall(dice: &mut Dice) -> Tree {
    let length = dice.from(60, 200);
    let mut tree = chain(dice, length, 97, |_, _| {});
    for _ in 0..dice.from(5, 40) {
        tree.magic(0, 0);
    }
    name_nodes(dice, &mut tree);
    let count = dice.from(5, 45);
    add_mounts(dice, &mut tree, count);
    tree
}

/// One directory with many names.
pub fn wide(dice: &mut Dice) -> Tree {
    let mut tree = Tree::default();
    let top = tree.top();
    for number in 0..dice.from(8, 60) {
        let node = match dice.below(8) {
            0..=3 => tree.file(),
            4..=6 => tree.link(b""),
            _ => tree.directory(top),
        };
        tree.name(top, format!("n{number}"), node);
        strew(dice, &mut tree, 8);
    }
    tree
}

/// Few directories and many mounts.
pub fn mounted(dice: &mut Dice) -> Tree {
    let mut tree = Tree::default();
    let top = tree.top();
    tree.directory(top);
    for _ in 0..dice.from(1, 6) {
        let parent = dice.choose(&tree.directories()).copied();
        let parent = if dice.percent(85) { parent } else { None };
        directory(&mut tree, parent);
        strew(dice, &mut tree, 50);
    }
    name_nodes(dice, &mut tree);
    let count = dice.from(3, 12);
    add_mounts(dice, &mut tree, count);
    tree
}

/// One directory full of links and magic links.
pub fn heavy(dice: &mut Dice) -> Tree {
    if dice.one_in(8) {
        return crowded(dice);
    }
    let mut tree = Tree::default();
    if dice.percent(30) {
        tree.magic(0, 0);
    }
    let top = tree.top();
    let inner = tree.directory(top);
    tree.directory(inner);
    tree.top();
    tree.file();
    for _ in 0..dice.from(4, 14) {
        if dice.percent(60) {
            tree.link(b"");
        } else {
            tree.magic(0, 0);
        }
    }
    tree
}

/// A few long names and bodies that many directories and links have, in a text
/// with bytes in it that none of them may hold.
fn crowded(dice: &mut Dice) -> Tree {
    let mut tree = Tree::default();
    let top = tree.top();
    let file = tree.file();
    let names: Vec<Vec<u8>> = (0..dice.from(1, 3))
        .map(|_| {
            let length = dice.from(60, 255);
            long_name(dice, length)
        })
        .collect();
    for _ in 0..dice.from(10, 40) {
        let directory = tree.directory(top);
        for name in &names {
            tree.name(directory, name, file);
        }
    }
    let bodies: Vec<Vec<u8>> = (0..dice.from(1, 3)).map(|_| long_body(dice)).collect();
    for _ in 0..dice.from(5, 30) {
        tree.link(dice.pick(&bodies));
    }
    tree.text = (0..dice.from(1, 90)).map(|_| dice.pick(b"\0/.ab")).collect();
    tree.after = (0..dice.from(1, 90)).map(|_| dice.pick(b"\0/.ab")).collect();
    tree
}

fn strew(dice: &mut Dice, tree: &mut Tree, share: usize) {
    if dice.percent(share) {
        match dice.below(5) {
            0 => tree.file(),
            1..=3 => tree.link(b""),
            _ => tree.magic(0, 0),
        };
    }
}
