//! Whole tables.

use super::bodies::write_bodies;
use super::chains::{add_chain, add_returns};
use super::limits::large;
use super::mounts::{add_mounts, aim_magic_links};
use super::names::name_nodes;
use super::nodes::{deep, heavy, mounted, small, wide};
use data::dice::Dice;
use data::image::Tree;

/// A table; nearly always one that is accepted.
pub fn table(dice: &mut Dice) -> Vec<u8> {
    if dice.one_in(250) {
        return large(dice);
    }
    let mut tree = match dice.below(100) {
        0..=61 => small(dice),
        62..=71 => deep(dice),
        72..=79 => wide(dice),
        80..=91 => mounted(dice),
        92..=93 => Tree::default(),
        _ => heavy(dice),
    };
    finish(dice, &mut tree);
    if dice.percent(30) {
        add_returns(dice, &mut tree);
    }
    if dice.percent(9) {
        add_chain(dice, &mut tree);
    }
    if dice.percent(10) {
        tree.text = (0..dice.below(9)).map(|_| dice.pick(b"\0/.ab")).collect();
        tree.after = (0..dice.below(9)).map(|_| dice.pick(b"\0/.ab")).collect();
    }
    if dice.percent(50) {
        tree.shared_image()
    } else {
        tree.image()
    }
}

/// Adds what is missing: a directory, names, mounts, bodies and targets.
fn finish(dice: &mut Dice, tree: &mut Tree) {
    if tree.directories().is_empty() {
        tree.top();
    }
    if tree.mounts.is_empty() {
        name_nodes(dice, tree);
        let count = dice.pick(&[0, 0, 1, 1, 2, 3, 4]);
        add_mounts(dice, tree, count);
    }
    aim_magic_links(dice, tree);
    write_bodies(dice, tree);
}
