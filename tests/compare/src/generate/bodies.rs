//! Bodies of links.

use super::names::{join, long_name, name, slashes};
use data::dice::Dice;
use data::image::{Entry, Node, Tree};

const LONGEST: usize = 4095;

/// The directory, and the name in it, that first names each node.
pub struct Namers(Vec<Option<(usize, Vec<u8>)>>);

impl Namers {
    pub fn of(tree: &Tree) -> Namers {
        let mut namers = vec![None; tree.nodes.len()];
        for directory in tree.directories() {
            for Entry { name, node } in tree.entries_of(directory).into_iter().flatten() {
                if let Some(slot @ None) = namers.get_mut(*node) {
                    *slot = Some((directory, name.bytes.clone()));
                }
            }
        }
        Namers(namers)
    }

    fn of_node(&self, node: usize) -> Option<(usize, Vec<u8>)> {
        self.0.get(node).cloned().flatten()
    }
}

/// Gives each link without a body one.
pub fn write_bodies(dice: &mut Dice, tree: &mut Tree) {
    let namers = Namers::of(tree);
    for number in 0..tree.nodes.len() {
        if matches!(&tree.nodes[number], Node::Link(body) if body.is_empty()) {
            let body = body(dice, tree, &namers, number);
            tree.nodes[number] = Node::Link(body.into());
        }
    }
}

fn body(dice: &mut Dice, tree: &Tree, namers: &Namers, link: usize) -> Vec<u8> {
    let top = tree.mounts.first().map_or(0, |mount| mount.root);
    let (directory, own) = namers.of_node(link).unwrap_or((top, b"a".to_vec()));
    let steps = dice.pick(&[1, 1, 1, 2, 2, 3, 5]);
    let mut body = match dice.below(100) {
        0..=36 => ramble(dice, tree, directory, steps),
        37..=59 => {
            let lead = slashes(dice).to_vec();
            [lead, ramble(dice, tree, top, steps)].concat()
        }
        60..=66 => dice.pick(&["..", "../..", "../../..", "./.."]).into(),
        67..=72 => dice.pick(&[".", "./.", "././."]).into(),
        73..=78 => dice.pick(&["/", "//", "///"]).into(),
        79..=82 => own,
        83..=90 => home(dice, tree, namers, directory),
        91..=95 => {
            let parts: Vec<Vec<u8>> = (0..steps).map(|_| name(dice)).collect();
            join(dice, &parts)
        }
        96..=97 => long_name(dice, 255),
        98 => long_name(dice, 256),
        _ if dice.one_in(6) => long_body(dice),
        _ => ramble(dice, tree, directory, 6),
    };
    if dice.percent(15) {
        body.extend(slashes(dice));
    }
    body.truncate(LONGEST);
    if body.is_empty() {
        body.push(b'.');
    }
    body
}

/// A body of nearly or exactly the longest length.
pub fn long_body(dice: &mut Dice) -> Vec<u8> {
    let mut body = dice.pick(&["./", "../", "/", "a/"]).repeat(LONGEST).into_bytes();
    body.truncate(dice.from(4090, LONGEST));
    body
}

/// A way back to the directory itself: through its parent, from the top, or
/// just ".".
pub fn home(dice: &mut Dice, tree: &Tree, namers: &Namers, directory: usize) -> Vec<u8> {
    let mut way = Vec::new();
    let mut here = directory;
    while let Some((parent, name)) = namers.of_node(here) {
        way.insert(0, name);
        here = parent;
    }
    match way.last() {
        Some(last) if dice.percent(50) => [b"../", &last[..]].concat(),
        Some(_) if tree.mounts.first().is_some_and(|mount| mount.root == here) => {
            [b"/", &join(dice, &way)[..]].concat()
        }
        _ => b".".to_vec(),
    }
}

/// Components along the tree from a directory, without following links.
fn ramble(dice: &mut Dice, tree: &Tree, from: usize, steps: usize) -> Vec<u8> {
    let mut here = Some(from);
    let mut parts = Vec::new();
    for _ in 0..steps {
        parts.push(step(dice, tree, &mut here));
        // A mount on the way shows its own root.
        if let Some(mount) = tree.mounts.iter().skip(1).find(|m| Some(m.point) == here) {
            if dice.percent(75) {
                here = Some(mount.root);
            }
        }
        if here.is_none() && dice.percent(70) {
            break;
        }
    }
    join(dice, &parts)
}

/// One component, and where it leads; nowhere if not to a directory.
fn step(dice: &mut Dice, tree: &Tree, here: &mut Option<usize>) -> Vec<u8> {
    let up = here.map(|directory| tree.parent_of(directory));
    let (component, to) = match dice.below(100) {
        0..=69 => {
            let entries = here.and_then(|directory| tree.entries_of(directory)).unwrap_or(&[]);
            match dice.choose(entries) {
                Some(Entry { name, node }) => {
                    (name.bytes.clone(), Some(*node).filter(|node| tree.is_directory(*node)))
                }
                None if dice.percent(70) => (b"..".to_vec(), up),
                None => (name(dice), *here),
            }
        }
        70..=87 => (b"..".to_vec(), up),
        88..=93 => (b".".to_vec(), *here),
        _ => (name(dice), *here),
    };
    *here = to;
    component
}
