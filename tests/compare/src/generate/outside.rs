//! Another table that has a handle's part in common with a first one: what lies outside the part
//! is changed in every way that there is, and what the part does not ask for inside it.

use super::bodies::write_bodies;
use super::mounts::aimed;
use super::names::name;
use crate::reach::reach;
use crate::resolver::{Place, Table};
use data::dice::Dice;
use data::image::{Entry, Mount, Node, Tree};
use std::collections::BTreeSet;

/// What must stay for the part to be in common.
pub struct Kept {
    pub handle: Place,
    pub places: BTreeSet<Place>,
    /// The nodes of the part.
    nodes: BTreeSet<usize>,
    /// The directories whose entries are of the part, being uncovered somewhere in it.
    listed: BTreeSet<usize>,
    /// The directories that a listed one names, which has to be their parent.
    named: BTreeSet<usize>,
    /// The mounts that are entered.
    entered: BTreeSet<usize>,
}

impl Kept {
    pub fn of(table: &Table, handle: Place) -> Kept {
        let places = reach(table, handle);
        let is_listed =
            |place: &&Place| table.is_directory(place.node) && table.covering(**place).is_none();
        let listed: BTreeSet<usize> =
            places.iter().filter(is_listed).map(|place| place.node as usize).collect();
        let entries = listed.iter().flat_map(|node| table.entries_of(&table.nodes[*node]));
        let named = entries.map(|entry| entry.node as usize).collect();
        let covers = places.iter().filter_map(|place| table.covering(*place));
        let entered = covers.map(|(mount, _)| mount as usize).collect();
        let nodes = places.iter().map(|place| place.node as usize).collect();
        Kept { handle, places, nodes, listed, named, entered }
    }

    pub fn is_inside(&self, node: usize) -> bool {
        self.nodes.contains(&node)
    }

    pub fn nodes(&self) -> Vec<usize> {
        self.nodes.iter().copied().collect()
    }

    pub fn listed(&self) -> Vec<usize> {
        self.listed.iter().copied().collect()
    }

    pub fn entered(&self) -> Vec<usize> {
        self.entered.iter().copied().collect()
    }

    /// Whether a mount may be hung elsewhere.
    fn is_movable(&self, mount: usize) -> bool {
        mount != 0 && !self.entered.contains(&mount)
    }

    /// The directories whose entries are free to change: those outside, and covered ones.
    fn unlisted(&self, tree: &Tree) -> Vec<usize> {
        let mut directories = tree.directories();
        directories.retain(|node| !self.listed.contains(node));
        directories
    }
}

/// One sort of change, made here and there.
type Change = fn(&mut Dice, &mut Tree, &Kept);

/// The changes, each with its share in a hundred.
const CHANGES: [(usize, Change); 8] = [
    (35, cut),
    (45, append),
    (45, change_kinds),
    (55, hang_directories),
    (60, change_mounts),
    (60, change_entries),
    (60, change_names),
    (60, change_links),
];

/// The tree changed; it may break a rule. The more tries there were, the fewer changes.
pub fn change_outside(dice: &mut Dice, tree: &Tree, kept: &Kept, tries: usize) -> Tree {
    let mut tree = tree.clone();
    for (share, change) in CHANGES {
        if dice.percent(share / (1 + tries)) {
            change(dice, &mut tree, kept);
            mend(dice, &mut tree, kept);
        }
    }
    if dice.percent(75) {
        lead_to_handle(dice, &mut tree, kept);
    }
    write_bodies(dice, &mut tree);
    tree
}

/// Takes the last nodes away, as far as the part has none of them.
fn cut(dice: &mut Dice, tree: &mut Tree, kept: &Kept) {
    let least = kept.nodes.last().map_or(1, |last| last + 1);
    tree.nodes.truncate(dice.from(least, tree.nodes.len()));
}

fn append(dice: &mut Dice, tree: &mut Tree, kept: &Kept) {
    for _ in 0..dice.pick(&[1, 1, 2, 3, 6, 12]) {
        let new = new_node(dice, tree, tree.nodes.len());
        tree.nodes.push(new);
        name_somewhere(dice, tree, kept, tree.nodes.len() - 1);
    }
}

/// A node of any kind under this number, a link's body still to come.
fn new_node(dice: &mut Dice, tree: &Tree, number: usize) -> Node {
    match dice.below(10) {
        0..=3 => Node::Directory { parent: parent(dice, tree, number), entries: Vec::new() },
        4 | 5 => Node::File,
        6 | 7 => Node::Link(b"".into()),
        _ => aimed(dice, tree),
    }
}

/// A parent for a directory of this number: mostly another, else itself.
fn parent(dice: &mut Dice, tree: &Tree, number: usize) -> usize {
    let mut lower = tree.directories();
    lower.retain(|directory| *directory < number);
    let other = dice.choose(&lower).copied().filter(|_| dice.percent(75));
    other.unwrap_or(number)
}

/// Names a node outside the part, where it may be.
fn name_somewhere(dice: &mut Dice, tree: &mut Tree, kept: &Kept, node: usize) {
    let unlisted = kept.unlisted(tree);
    let directory = match tree.is_directory(node) {
        true => Some(tree.parent_of(node)).filter(|up| *up < node && unlisted.contains(up)),
        false => dice.choose(&unlisted).copied(),
    };
    if let Some(directory) = directory {
        tree.name(directory, name(dice), node);
    }
}

fn change_kinds(dice: &mut Dice, tree: &mut Tree, kept: &Kept) {
    for number in 0..tree.nodes.len() {
        if !kept.is_inside(number) && dice.percent(35) {
            tree.nodes[number] = new_node(dice, tree, number);
        }
    }
}

/// Other parents, also for the tops of the part: the handle's directory and roots of mounts.
fn hang_directories(dice: &mut Dice, tree: &mut Tree, kept: &Kept) {
    for number in tree.directories() {
        if kept.named.contains(&number) || dice.percent(45) {
            continue;
        }
        let other = parent(dice, tree, number);
        if let Node::Directory { parent, .. } = &mut tree.nodes[number] {
            *parent = other;
        }
        if dice.percent(70) {
            name_somewhere(dice, tree, kept, number);
        }
    }
}

/// Other roots and points, more mounts at the end or fewer.
fn change_mounts(dice: &mut Dice, tree: &mut Tree, kept: &Kept) {
    let is_last_free = |tree: &Tree| {
        let last = tree.mounts.len() - 1;
        last as u64 != kept.handle.mount && kept.is_movable(last)
    };
    while dice.percent(40) && is_last_free(tree) {
        tree.mounts.pop();
    }
    for number in 0..tree.mounts.len() {
        if !kept.entered.contains(&number) && dice.percent(40) {
            tree.mounts[number].root = root(dice, tree, kept, number);
        }
        if kept.is_movable(number) && dice.percent(40) {
            hang_mount(dice, tree, kept, number);
        }
    }
    for _ in 0..dice.pick(&[0, 0, 1, 1, 2, 5]) {
        let number = tree.mounts.len();
        let root = root(dice, tree, kept, number);
        tree.mount(root, 0, root);
        if !hang_mount(dice, tree, kept, number) {
            tree.mounts.pop();
        }
    }
}

/// A root for a mount; the handle's must stay one that its handle is under.
fn root(dice: &mut Dice, tree: &Tree, kept: &Kept, number: usize) -> usize {
    let mut directories = tree.directories();
    if number as u64 == kept.handle.mount {
        directories.retain(|root| tree.is_under(kept.handle.node as usize, *root));
    }
    dice.pick(&directories)
}

/// Whether a mount can be hung there and the part stays as it is.
fn is_free(tree: &Tree, kept: &Kept, number: usize, (parent, point): (usize, usize)) -> bool {
    let place = Place { mount: parent as u64, node: point as u64 };
    let mut others = tree.mounts.iter().enumerate().skip(1).filter(|(other, _)| *other != number);
    let root = tree.mounts.get(parent).map(|mount| mount.root);
    parent < number
        && tree.is_directory(point)
        && root.is_some_and(|root| point != root && tree.is_under(point, root))
        && !kept.places.contains(&place)
        && !others.any(|(_, mount)| (mount.parent, mount.point) == (parent, point))
}

/// Hangs a mount elsewhere, often on a node of the part that is seen through another mount; false
/// if there is no place.
fn hang_mount(dice: &mut Dice, tree: &mut Tree, kept: &Kept, number: usize) -> bool {
    let directories = tree.directories();
    for tried in 0..24 {
        let place = (dice.below(number), dice.pick(&directories));
        let is_wanted = tried > 12 || kept.is_inside(place.1);
        if is_wanted && is_free(tree, kept, number, place) {
            (tree.mounts[number].parent, tree.mounts[number].point) = place;
            return true;
        }
    }
    false
}

/// Fewer entries and more, in directories outside and in covered ones of the part.
fn change_entries(dice: &mut Dice, tree: &mut Tree, kept: &Kept) {
    for directory in kept.unlisted(tree) {
        if dice.percent(60) {
            edit_entries(tree, directory, |entries| entries.retain(|_| dice.percent(60)));
        }
    }
    for _ in 0..dice.from(0, 8) {
        let node = dice.below(tree.nodes.len());
        name_somewhere(dice, tree, kept, node);
    }
}

fn change_names(dice: &mut Dice, tree: &mut Tree, kept: &Kept) {
    for directory in kept.unlisted(tree) {
        let old = tree.entries_of(directory).unwrap_or(&[]).to_vec();
        edit_entries(tree, directory, Vec::clear);
        for Entry { name: old, node } in old {
            let new = if dice.percent(50) { name(dice).into() } else { old.clone() };
            if !tree.name(directory, new, node) {
                tree.name(directory, old, node);
            }
        }
    }
}

/// Other bodies outside, and other targets inside too.
fn change_links(dice: &mut Dice, tree: &mut Tree, kept: &Kept) {
    for number in 0..tree.nodes.len() {
        match tree.nodes[number] {
            Node::Link(_) if !kept.is_inside(number) && dice.percent(50) => {
                tree.nodes[number] = Node::Link(b"".into());
            }
            Node::Magic { .. } if dice.percent(70) => tree.nodes[number] = aimed(dice, tree),
            _ => {}
        }
    }
}

/// A magic link in the root of mount 0, if that is outside, that leads to the handle.
fn lead_to_handle(dice: &mut Dice, tree: &mut Tree, kept: &Kept) {
    let top = tree.mounts[0].root;
    if !kept.listed.contains(&top) {
        let link = tree.magic(kept.handle.mount as usize, kept.handle.node as usize);
        tree.name(top, name(dice), link);
    }
}

fn edit_entries(tree: &mut Tree, directory: usize, edit: impl FnOnce(&mut Vec<Entry>)) {
    if let Some(Node::Directory { entries, .. }) = tree.nodes.get_mut(directory) {
        edit(entries);
    }
}

/// Puts right what a change has broken, as far as that is outside.
fn mend(dice: &mut Dice, tree: &mut Tree, kept: &Kept) {
    for number in tree.directories() {
        let up = tree.parent_of(number);
        if up > number || !tree.is_directory(up) {
            let other = parent(dice, tree, number);
            if let Node::Directory { parent, .. } = &mut tree.nodes[number] {
                *parent = other;
            }
        }
    }
    for directory in kept.unlisted(tree) {
        let can_stay = |Entry { node, .. }: &Entry| match tree.is_directory(*node) {
            true => tree.parent_of(*node) == directory && *node > directory,
            false => *node < tree.nodes.len(),
        };
        let mut entries = tree.entries_of(directory).unwrap_or(&[]).to_vec();
        entries.retain(can_stay);
        edit_entries(tree, directory, |old| *old = entries);
    }
    mend_mounts(dice, tree, kept);
    mend_links(dice, tree);
}

/// Another target for each magic link that has none.
pub fn mend_links(dice: &mut Dice, tree: &mut Tree) {
    for number in 0..tree.nodes.len() {
        if !leads(tree, number) {
            tree.nodes[number] = aimed(dice, tree);
        }
    }
}

fn mend_mounts(dice: &mut Dice, tree: &mut Tree, kept: &Kept) {
    for number in 0..tree.mounts.len() {
        if kept.entered.contains(&number) {
            continue;
        }
        let Mount { root: old, parent, point } = tree.mounts[number];
        let is_right =
            number as u64 != kept.handle.mount || tree.is_under(kept.handle.node as usize, old);
        if !tree.is_directory(old) || !is_right {
            tree.mounts[number].root = root(dice, tree, kept, number);
        }
        if number == 0 {
            tree.mounts[0].point = tree.mounts[0].root;
        } else if !is_free(tree, kept, number, (parent, point)) {
            hang_mount(dice, tree, kept, number);
        }
    }
}

/// Whether a node that is a magic link has a target.
fn leads(tree: &Tree, number: usize) -> bool {
    let Node::Magic { mount, node } = tree.nodes[number] else { return true };
    let Some(mount) = tree.mounts.get(mount) else { return false };
    match tree.nodes.get(node) {
        Some(Node::Directory { .. }) => tree.is_under(node, mount.root),
        Some(Node::File) => true,
        _ => false,
    }
}
