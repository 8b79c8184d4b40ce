//! Mounts, and the magic links that lead into them.

use data::dice::Dice;
use data::image::{Node, Tree};

/// Mount 0 and up to `count` others, many of them showing the same root.
pub fn add_mounts(dice: &mut Dice, tree: &mut Tree, count: usize) {
    let directories = tree.directories();
    let root = if dice.percent(85) {
        directories.first().copied().unwrap_or(0)
    } else {
        dice.pick(&directories)
    };
    tree.mount(root, 0, root);
    let tops: Vec<usize> =
        directories.iter().copied().filter(|number| tree.parent_of(*number) == *number).collect();
    for _ in 0..count {
        let parent = dice.below(tree.mounts.len());
        let Some(point) = dice.choose(&points(tree, &directories, parent)).copied() else {
            continue;
        };
        let root = match dice.below(100) {
            0..=34 => dice.choose(&tree.mounts).map_or(0, |mount| mount.root),
            35..=59 => dice.pick(&tops),
            _ => dice.pick(&directories),
        };
        tree.mount(root, parent, point);
    }
}

/// Where another mount can be put in a mount.
fn points(tree: &Tree, directories: &[usize], parent: usize) -> Vec<usize> {
    let parent_root = tree.mounts[parent].root;
    let is_free = |point: usize| {
        let mut earlier = tree.mounts.iter().skip(1);
        point != parent_root
            && tree.is_under(point, parent_root)
            && !earlier.any(|mount| mount.parent == parent && mount.point == point)
    };
    directories.iter().copied().filter(|point| is_free(*point)).collect()
}

/// Gives every magic link a target.
pub fn aim_magic_links(dice: &mut Dice, tree: &mut Tree) {
    for number in 0..tree.nodes.len() {
        if matches!(tree.nodes[number], Node::Magic { .. }) {
            tree.nodes[number] = aimed(dice, tree);
        }
    }
}

/// A magic link. Targets: files in any mount, directories under the mount's root, the
/// covered ones and the roots often.
pub fn aimed(dice: &mut Dice, tree: &Tree) -> Node {
    let mount = dice.below(tree.mounts.len());
    let root = tree.mounts[mount].root;
    let inside = tree.mounts.iter().skip(1).filter(|other| other.parent == mount);
    let covered: Vec<usize> = inside.map(|other| other.point).collect();
    let mut node = match dice.below(100) {
        0..=24 => dice.choose(&tree.files()).copied(),
        25..=49 => dice.choose(&covered).copied(),
        50..=64 => Some(root),
        _ => dice.choose(&tree.directories()).copied(),
    }
    .unwrap_or(root);
    if tree.is_directory(node) && !tree.is_under(node, root) {
        node = root;
    }
    Node::Magic { mount, node }
}
