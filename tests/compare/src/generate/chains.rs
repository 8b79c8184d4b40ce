//! Links that lead back, or on and on.

use super::bodies::{home, Namers};
use data::dice::Dice;
use data::image::Tree;

/// Links that lead back to their directory, so that paths can follow many.
pub fn add_returns(dice: &mut Dice, tree: &mut Tree) {
    for _ in 0..dice.from(1, 2) {
        let directory = dice.pick(&tree.directories());
        let namers = Namers::of(tree);
        if dice.percent(70) {
            let link = tree.link(home(dice, tree, &namers, directory));
            tree.name(directory, b"s", link);
        }
        if dice.percent(50) {
            let shows = |mount: &usize| tree.is_under(directory, tree.mounts[*mount].root);
            let mounts: Vec<usize> = (0..tree.mounts.len()).filter(shows).collect();
            if let Some(mount) = dice.choose(&mounts) {
                let magic = tree.magic(*mount, directory);
                tree.name(directory, b"m", magic);
            }
        }
    }
}

/// About forty links, each leading to the next.
pub fn add_chain(dice: &mut Dice, tree: &mut Tree) {
    let directory = dice.pick(&tree.directories());
    let length = dice.from(38, 44);
    for number in 0..length {
        let next = format!("k{:02}", number + 1);
        let body = match dice.below(20) {
            0 => format!("./{next}"),
            1 => format!("{next}/"),
            2 => format!(".//{next}//"),
            _ => next,
        };
        let link = tree.link(body);
        tree.name(directory, format!("k{number:02}"), link);
    }
    let last = chain_end(dice, tree, directory);
    tree.name(directory, format!("k{length:02}"), last);
}

/// The node that a chain in the directory leads to.
fn chain_end(dice: &mut Dice, tree: &mut Tree, directory: usize) -> usize {
    let entries = tree.entries_of(directory).unwrap_or(&[]);
    let body = match dice.below(10) {
        0 => "k00".into(),
        1 => "..".into(),
        2 => "/".into(),
        3 => "missing".into(),
        _ => dice.choose(entries).map_or(b".".to_vec(), |entry| entry.name.bytes.clone()),
    };
    if dice.percent(50) {
        tree.link(body)
    } else if dice.percent(50) {
        tree.file()
    } else {
        // Under the root of mount 0 or, being that root, at least in it.
        let root = tree.mounts.first().map_or(0, |mount| mount.root);
        let target = if tree.is_under(directory, root) { directory } else { root };
        tree.magic(0, target)
    }
}
