//! Something changed in a tree, anywhere. What comes of it may be no table.

use data::dice::Dice;
use data::image::{Entry, Mount, Node, Text, Tree};

const NAMES: [&str; 5] = ["a", "b", "B", "zz", "new"];

pub fn change(dice: &mut Dice, tree: &mut Tree) {
    match dice.below(16) {
        0 => _ = tree.file(),
        1 => tree.after.push(b'x'),
        2 => root(dice, tree),
        3..=6 => mount(dice, tree),
        7..=10 => kind(dice, tree),
        _ => entries(dice, tree),
    }
}

/// A mount more or less, or one that shows something else.
fn mount(dice: &mut Dice, tree: &mut Tree) {
    let directories = tree.directories();
    let [root, point] = [0, 1].map(|_| dice.pick(&directories));
    let at = dice.below(tree.mounts.len());
    match dice.below(4) {
        0 if tree.mounts.len() > 1 => _ = tree.mounts.pop(),
        1 if at > 0 => tree.mounts[at].root = root,
        2 if at > 0 => tree.mounts[at..].rotate_left(1),
        _ => tree.mounts.push(Mount { root, parent: at, point }),
    }
}

fn root(dice: &mut Dice, tree: &mut Tree) {
    let root = dice.pick(&tree.directories());
    (tree.mounts[0].root, tree.mounts[0].point) = (root, root);
}

/// Another kind, body, target or parent.
fn kind(dice: &mut Dice, tree: &mut Tree) {
    let (at, directories) = (dice.below(tree.nodes.len()), tree.directories());
    let parent = dice.pick(&directories);
    let other = match (&tree.nodes[at], dice.below(4)) {
        (Node::Directory { entries, .. }, _) => {
            Node::Directory { parent, entries: entries.clone() }
        }
        (Node::Link(_), 1..) | (_, 0) => Node::Link(Text::from(dice.pick(&NAMES))),
        (_, 1) => Node::File,
        _ => Node::Magic { mount: 0, node: dice.pick(&directories) },
    };
    tree.nodes[at] = other;
}

/// A name more or less, another name, or one of another node.
fn entries(dice: &mut Dice, tree: &mut Tree) {
    let (directory, node) = (dice.pick(&tree.directories()), dice.below(tree.nodes.len()));
    let name = Text::from(dice.pick(&NAMES));
    let Node::Directory { entries, .. } = &mut tree.nodes[directory] else { return };
    let at = dice.below(entries.len());
    match (dice.below(4), entries.is_empty()) {
        (0, false) => _ = entries.remove(at),
        (1, false) => entries[at].name = name,
        (2, false) => entries[at].node = node,
        _ => entries.push(Entry { name, node }),
    }
    entries.sort_by(|one, two| one.name.bytes.cmp(&two.name.bytes));
}
