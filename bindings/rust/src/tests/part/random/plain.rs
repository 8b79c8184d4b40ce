//! RULES 7.4, 20.2 and 20.4 on a tree, said plainly.

use crate::Place;
use data::image::{Node, Tree};
use std::collections::BTreeSet;
use std::mem::discriminant;

type Pair = (usize, usize);

/// All mounts with all nodes.
pub fn all(tree: &Tree) -> impl Iterator<Item = Pair> {
    let nodes = tree.nodes.len();
    (0..tree.mounts.len()).flat_map(move |mount| (0..nodes).map(move |node| (mount, node)))
}

pub fn place((mount, node): Pair) -> Place {
    Place { mount: mount as u64, node: node as u64 }
}

/// The mount on a place, with its root.
fn covering(tree: &Tree, (parent, point): Pair) -> Option<Pair> {
    let mut mounts = tree.mounts.iter().enumerate().skip(1);
    let (number, mount) = mounts.find(|(_, m)| (m.parent, m.point) == (parent, point))?;
    Some((number, mount.root))
}

pub fn is_good(tree: &Tree, (mount, node): Pair) -> bool {
    let (Some(mounted), Some(Node::Directory { .. })) =
        (tree.mounts.get(mount), tree.nodes.get(node))
    else {
        return false;
    };
    tree.is_under(node, mounted.root) && covering(tree, (mount, node)).is_none()
}

pub fn good_handles(tree: &Tree) -> Vec<Place> {
    all(tree).filter(|handle| is_good(tree, *handle)).map(place).collect()
}

/// What is reachable from a place: whatever leads to nothing new.
pub fn reachable(tree: &Tree, from: Pair) -> BTreeSet<Pair> {
    let mut reached = BTreeSet::from([from]);
    loop {
        let step = |place: &Pair| match (covering(tree, *place), tree.entries_of(place.1)) {
            (Some(root), _) => vec![root],
            (None, entries) => {
                entries.unwrap_or_default().iter().map(|entry| (place.0, entry.node)).collect()
            }
        };
        let more: Vec<Pair> = reached.iter().flat_map(step).collect();
        let before = reached.len();
        reached.extend(more);
        if reached.len() == before {
            return reached;
        }
    }
}

pub fn in_common([one, two]: &[Tree; 2], handle: Place) -> bool {
    let handle = (handle.mount as usize, handle.node as usize);
    let same = |place: Pair| {
        let Some((here, there)) = one.nodes.get(place.1).zip(two.nodes.get(place.1)) else {
            return false;
        };
        let is_covered = covering(one, place).is_some();
        discriminant(here) == discriminant(there)
            && (is_covered || one.entries_of(place.1) == two.entries_of(place.1))
            && (!matches!(here, Node::Link(_)) || here == there)
            && covering(one, place) == covering(two, place)
    };
    is_good(two, handle) && reachable(one, handle).into_iter().all(same)
}
