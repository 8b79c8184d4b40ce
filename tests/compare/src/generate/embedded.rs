//! A tree below the top of another, so that much lies within a handle's part and much outside.

use super::bodies::write_bodies;
use super::mounts::aimed;
use super::names::{name, name_nodes};
use data::dice::Dice;
use data::image::{Mount, Node, Tree};

/// The tree hung into a new one, and the node that mount 0's root has become.
pub fn embedded(dice: &mut Dice, tree: &Tree) -> (Tree, usize) {
    let (mut outer, _) = Tree::mounted();
    for _ in 0..dice.from(1, 6) {
        match dice.below(8) {
            0..=4 => {
                let parent = dice.pick(&outer.directories());
                outer.directory(parent)
            }
            5 => outer.file(),
            6 => outer.link(b""),
            _ => outer.magic(0, 0),
        };
    }
    name_nodes(dice, &mut outer);
    let by = outer.nodes.len();
    outer.nodes.extend(tree.nodes.iter().map(|node| shifted(node, by)));
    let inner = tree.mounts.iter().skip(1);
    outer.mounts.extend(inner.map(|mount| Mount {
        root: mount.root + by,
        parent: mount.parent,
        point: mount.point + by,
    }));
    let root = tree.mounts.first().map_or(0, |mount| mount.root);
    hang(dice, &mut outer, by, root + by);
    if dice.percent(70) {
        // A way there, whatever is covered.
        let link = outer.magic(0, root + by);
        outer.name(0, name(dice), link);
    }
    mount_outside(dice, &mut outer, by);
    aim_outside(dice, &mut outer, by);
    write_bodies(dice, &mut outer);
    (outer, root + by)
}

/// A node under a number that is higher by so many, as all that it speaks of.
fn shifted(node: &Node, by: usize) -> Node {
    let mut node = node.clone();
    match &mut node {
        Node::Directory { parent, entries } => {
            *parent += by;
            entries.iter_mut().for_each(|entry| entry.node += by);
        }
        Node::Magic { node, .. } => *node += by,
        Node::File | Node::Link(_) => {}
    }
    node
}

/// Hangs the top above a node into one of the first directories, mostly by a name.
fn hang(dice: &mut Dice, outer: &mut Tree, by: usize, node: usize) {
    let mut top = node;
    while outer.parent_of(top) != top {
        top = outer.parent_of(top);
    }
    let mut directories = outer.directories();
    directories.retain(|directory| *directory < by);
    let directory = dice.pick(&directories);
    if let Node::Directory { parent, .. } = &mut outer.nodes[top] {
        *parent = directory;
    }
    let mut tries = 0..dice.pick(&[0, 8, 8, 8, 8, 8]);
    while tries.next().is_some() && !outer.name(directory, name(dice), top) {}
}

/// Mounts on the first directories, of any root.
fn mount_outside(dice: &mut Dice, outer: &mut Tree, by: usize) {
    for point in 1..by {
        if outer.is_directory(point) && dice.percent(35) {
            let root = dice.pick(&outer.directories());
            outer.mount(root, 0, point);
        }
    }
}

fn aim_outside(dice: &mut Dice, outer: &mut Tree, by: usize) {
    for number in 0..by {
        if matches!(outer.nodes[number], Node::Magic { .. }) {
            outer.nodes[number] = aimed(dice, outer);
        }
    }
}
