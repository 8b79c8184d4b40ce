//! One change within a handle's part.

use super::names::name;
use super::outside::{mend_links, Kept};
use crate::resolver::Place;
use data::dice::Dice;
use data::image::{Entry, Node, Tree};

/// A change of one sort; none if there is nothing to be changed so. It may break a rule.
type Change = fn(&mut Dice, &mut Tree, &Kept) -> Option<()>;

const CHANGES: [Change; 10] = [
    change_body,
    change_name,
    change_kind,
    change_node,
    exchange_nodes,
    change_root,
    add_mount,
    remove_mount,
    add_entry,
    remove_entry,
];

/// The tree with something changed in the part, so that this is no longer in common.
pub fn change_inside(dice: &mut Dice, tree: &Tree, kept: &Kept) -> Option<Tree> {
    let mut tree = tree.clone();
    let change = dice.choose(&CHANGES)?;
    change(dice, &mut tree, kept)?;
    Some(tree)
}

/// One of the part's nodes that are such.
fn some_node(
    dice: &mut Dice,
    tree: &Tree,
    kept: &Kept,
    is_such: impl Fn(&Node) -> bool,
) -> Option<usize> {
    let mut nodes = kept.nodes();
    nodes.retain(|number| is_such(&tree.nodes[*number]));
    dice.choose(&nodes).copied()
}

fn change_body(dice: &mut Dice, tree: &mut Tree, kept: &Kept) -> Option<()> {
    let link = some_node(dice, tree, kept, |node| matches!(node, Node::Link(_)))?;
    let Node::Link(body) = &tree.nodes[link] else { return None };
    let new = match dice.below(4) {
        0 => [&body.bytes[..], b"/."].concat(),
        1 => [b"./", &body.bytes[..]].concat(),
        2 => dice.pick(&[".", "..", "/", "../..", "/."]).into(),
        _ => name(dice),
    };
    let is_other = new != body.bytes;
    tree.nodes[link] = Node::Link(new.into());
    is_other.then_some(())
}

/// Another kind for what is no directory.
fn change_kind(dice: &mut Dice, tree: &mut Tree, kept: &Kept) -> Option<()> {
    let number = some_node(dice, tree, kept, |node| !matches!(node, Node::Directory { .. }))?;
    let (mount, node) = (kept.handle.mount as usize, kept.handle.node as usize);
    let kinds = [Node::File, Node::Link(name(dice).into()), Node::Magic { mount, node }];
    let kind = std::mem::discriminant::<Node>;
    let old = kind(&tree.nodes[number]);
    let others: Vec<&Node> = kinds.iter().filter(|other| kind(other) != old).collect();
    tree.nodes[number] = (*dice.choose(&others)?).clone();
    Some(())
}

/// A directory of the part that has names, and one of these.
fn some_entry(dice: &mut Dice, tree: &Tree, kept: &Kept) -> Option<(usize, usize)> {
    let mut directories = kept.listed();
    directories.retain(|directory| !tree.entries_of(*directory).unwrap_or(&[]).is_empty());
    let directory = *dice.choose(&directories)?;
    Some((directory, dice.below(tree.entries_of(directory)?.len())))
}

fn take_entry(tree: &mut Tree, directory: usize, at: usize) -> Option<Entry> {
    match &mut tree.nodes[directory] {
        Node::Directory { entries, .. } => Some(entries.remove(at)),
        _ => None,
    }
}

fn change_name(dice: &mut Dice, tree: &mut Tree, kept: &Kept) -> Option<()> {
    let (directory, at) = some_entry(dice, tree, kept)?;
    let Entry { name: old, node } = take_entry(tree, directory, at)?;
    let new = name(dice);
    (new != old.bytes && tree.name(directory, new, node)).then_some(())
}

fn change_node(dice: &mut Dice, tree: &mut Tree, kept: &Kept) -> Option<()> {
    let (directory, at) = some_entry(dice, tree, kept)?;
    let Entry { name, node } = take_entry(tree, directory, at)?;
    let other = other_node(dice, tree, node)?;
    tree.name(directory, name, other).then_some(())
}

/// Two names with each other's nodes: the same names and the same nodes.
fn exchange_nodes(dice: &mut Dice, tree: &mut Tree, kept: &Kept) -> Option<()> {
    let (directory, one) = some_entry(dice, tree, kept)?;
    let Node::Directory { entries, .. } = &mut tree.nodes[directory] else { return None };
    let two = dice.below(entries.len());
    let nodes = [entries[one].node, entries[two].node];
    [entries[two].node, entries[one].node] = nodes;
    (nodes[0] != nodes[1]).then_some(())
}

/// Another node than this that may be named anywhere.
fn other_node(dice: &mut Dice, tree: &Tree, node: usize) -> Option<usize> {
    let mut nodes: Vec<usize> = (0..tree.nodes.len()).collect();
    nodes.retain(|other| *other != node && !tree.is_directory(*other));
    dice.choose(&nodes).copied()
}

fn add_entry(dice: &mut Dice, tree: &mut Tree, kept: &Kept) -> Option<()> {
    let directory = *dice.choose(&kept.listed())?;
    let node = other_node(dice, tree, directory)?;
    tree.name(directory, name(dice), node).then_some(())
}

fn remove_entry(dice: &mut Dice, tree: &mut Tree, kept: &Kept) -> Option<()> {
    let (directory, at) = some_entry(dice, tree, kept)?;
    take_entry(tree, directory, at).map(|_| ())
}

fn change_root(dice: &mut Dice, tree: &mut Tree, kept: &Kept) -> Option<()> {
    let mount = *dice.choose(&kept.entered())?;
    let root = dice.pick(&tree.directories());
    let is_other = root != tree.mounts[mount].root;
    tree.mounts[mount].root = root;
    is_other.then_some(())
}

/// A mount on a place that none covers.
fn add_mount(dice: &mut Dice, tree: &mut Tree, kept: &Kept) -> Option<()> {
    let covers = |place: &Place| {
        let mut mounts = tree.mounts.iter().skip(1);
        mounts.any(|mount| (mount.parent as u64, mount.point as u64) == (place.mount, place.node))
    };
    let is_root = |place: &Place| tree.mounts[place.mount as usize].root == place.node as usize;
    let mut places: Vec<Place> = kept.places.iter().copied().collect();
    places.retain(|place| {
        let can_be = tree.is_directory(place.node as usize) && *place != kept.handle;
        can_be && !is_root(place) && !covers(place)
    });
    let place = *dice.choose(&places)?;
    let root = dice.pick(&tree.directories());
    tree.mount(root, place.mount as usize, place.node as usize);
    Some(())
}

/// The last mount taken away, or another hung elsewhere, perhaps within the part.
fn remove_mount(dice: &mut Dice, tree: &mut Tree, kept: &Kept) -> Option<()> {
    let mount = *dice.choose(&kept.entered())?;
    if mount + 1 == tree.mounts.len() {
        tree.mounts.pop();
        mend_links(dice, tree);
        return Some(());
    }
    let old = tree.mounts[mount].clone();
    tree.mounts[mount].parent = dice.below(mount);
    tree.mounts[mount].point = dice.pick(&tree.directories());
    (tree.mounts[mount] != old).then_some(())
}
