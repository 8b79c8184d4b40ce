//! Tables for lookups: directories of many sizes, with names that are hard to tell apart.

use data::dice::Dice;
use data::image::{Entry, Node, Text, Tree};
use std::collections::BTreeMap;

/// A table holds no more entries.
const MOST: usize = 4096;

pub fn listing(dice: &mut Dice) -> Vec<u8> {
    let mut listing = Listing::new(dice);
    let mut directories = listing.tree.directories();
    let mut left = MOST;
    if dice.one_in(16) {
        let directory = directories.remove(dice.below(directories.len()));
        let size = large(dice);
        listing.fill(dice, directory, size);
        left -= size;
        // The text is nearly full.
        left = left.min(2 * directories.len());
    }
    for directory in directories {
        let size = size(dice).min(left);
        listing.fill(dice, directory, size);
        left -= size;
    }
    listing.cover(dice);
    if dice.percent(50) {
        listing.tree.shared_image()
    } else {
        listing.tree.image()
    }
}

/// How many names a directory has: often a power of two or beside one, where the count of
/// names compared changes.
fn size(dice: &mut Dice) -> usize {
    match dice.below(100) {
        0..=54 => dice.below(12),
        55..=84 => (1 << dice.from(3, 7)) - 1 + dice.below(3),
        85..=93 => dice.from(12, 120),
        94..=97 => dice.from(120, 600),
        _ => (1 << dice.from(8, 9)) - 1 + dice.below(3),
    }
}

fn large(dice: &mut Dice) -> usize {
    let about = (1 << dice.from(10, 11)) - 1 + dice.below(3);
    dice.pick(&[about, about, 3000, MOST - 1, MOST, MOST])
}

struct Listing {
    tree: Tree,
    /// What is named besides directories.
    others: Vec<usize>,
}

impl Listing {
    /// A few directories without names yet, not all of them below the top.
    fn new(dice: &mut Dice) -> Listing {
        let mut tree = Tree::default();
        let mut others = Vec::new();
        if dice.percent(20) {
            others.push(tree.file());
        }
        let top = tree.top();
        tree.mount(top, 0, top);
        for _ in 0..dice.below(4) {
            let parent = dice.pick(&tree.directories());
            if dice.percent(70) {
                tree.directory(parent);
            } else {
                tree.top();
            }
        }
        others.extend([tree.file(), tree.file(), tree.link(".."), tree.magic(0, top)]);
        Listing { tree, others }
    }

    fn fill(&mut self, dice: &mut Dice, directory: usize, size: usize) {
        let naming = naming(dice, &mut self.tree);
        let mut names = BTreeMap::new();
        for number in 0..2 * size {
            if names.len() == size {
                break;
            }
            let name = naming(dice, number);
            if name.bytes != b"." && name.bytes != b".." {
                names.insert(name.bytes.clone(), name);
            }
        }
        // In place of those that came twice.
        let mut number = 0;
        while names.len() < size {
            let name = format!("{number:x}");
            names.entry(name.clone().into_bytes()).or_insert(name.into());
            number += 1;
        }
        let nodes = self.nodes(dice, directory, size);
        let entries = names.into_values().zip(nodes).map(|(name, node)| Entry { name, node });
        let (parent, entries) = (self.tree.parent_of(directory), entries.collect());
        self.tree.nodes[directory] = Node::Directory { parent, entries };
    }

    /// What the names of a directory name: few nodes, each often; seldom a directory.
    fn nodes(&mut self, dice: &mut Dice, directory: usize, size: usize) -> Vec<usize> {
        let mut below = self.tree.directories();
        below.retain(|number| *number != directory && self.tree.parent_of(*number) == directory);
        let mut node = || match dice.below(100) {
            0..=3 if !below.is_empty() => dice.pick(&below),
            4..=6 if self.tree.nodes.len() < 50 => {
                below.push(self.tree.directory(directory));
                below[below.len() - 1]
            }
            _ => dice.pick(&self.others),
        };
        (0..size).map(|_| node()).collect()
    }

    /// Mounts on some directories below the top.
    fn cover(&mut self, dice: &mut Dice) {
        let tree = &mut self.tree;
        let directories = tree.directories();
        let top = tree.mounts[0].root;
        for point in directories.iter().copied() {
            if point != top && tree.is_under(point, top) && dice.percent(20) {
                tree.mount(dice.pick(&directories), 0, point);
            }
        }
    }
}

/// A way to name what has a number.
type Naming = Box<dyn Fn(&mut Dice, usize) -> Text>;

fn naming(dice: &mut Dice, tree: &mut Tree) -> Naming {
    match dice.below(9) {
        0 => Box::new(|_, number| format!("run{number:04}").into()),
        // Some begin others.
        1 => Box::new(|_, number| format!("{number}").into()),
        2 => letters(b"ab", 12),
        3 => letters(b"\x01.a\x7f\x80\xff", 5),
        4 => letters(b"ab\xc3\xa9\xff", 40),
        5 => parts(dice, tree, b"a"),
        6 => parts(dice, tree, b"ab\x80\xff"),
        7 => alike(dice, tree),
        _ => Box::new(|dice, number| match number {
            // These have a text each, so they are few.
            0..40 => ["n".repeat(dice.from(200, 250)), format!("{number}")].concat().into(),
            _ => format!("{number}").into(),
        }),
    }
}

fn letters(alphabet: &'static [u8], longest: usize) -> Naming {
    Box::new(move |dice, _| {
        let length = dice.from(1, longest);
        (0..length).map(|_| dice.pick(alphabet)).collect::<Vec<u8>>().into()
    })
}

/// Parts of one text, from anywhere in it.
fn parts(dice: &mut Dice, tree: &mut Tree, alphabet: &[u8]) -> Naming {
    let length = dice.pick(&[255, 600, 2000]);
    let letters: Vec<u8> = (0..length).map(|_| dice.pick(alphabet)).collect();
    let text = tree.text(&letters);
    let longest = dice.pick(&[8, 40, 255]);
    Box::new(move |dice, _| {
        let length = dice.from(1, longest);
        text.part(dice.below(text.len() - length + 1), length)
    })
}

/// Parts of one text, all alike in their first 200 bytes.
fn alike(dice: &mut Dice, tree: &mut Tree) -> Naming {
    let mut letters = vec![b'n'; 255];
    letters.extend((0..54).map(|_| dice.pick(b"mno\x80")));
    let text = tree.text(&letters);
    Box::new(move |dice, _| text.part(dice.below(55), dice.from(201, 255)))
}
