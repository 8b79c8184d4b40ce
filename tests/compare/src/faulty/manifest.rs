//! A table written anew, as by way of its manifest, but with the numbers that it has.

use crate::builder::LONGEST_IMAGE;
use crate::faults::Fault;
use crate::manifest::Rewritten;
use crate::resolver::accept;
use crate::tree;
use data::image::{Node, Tree};

/// The image of the tree, each name and body in a place of its own. The image is accepted.
pub fn rewritten(fault: Option<Fault>, image: &[u8]) -> Rewritten {
    let Ok(table) = accept(image) else { return Err(0) };
    let mut tree = tree::of(&table);
    match fault {
        Some(Fault::ManifestBody) => shorten_body(&mut tree),
        Some(Fault::ManifestParent) => tree.mounts.iter_mut().for_each(|mount| mount.parent = 0),
        Some(Fault::ManifestNameless) => drop_nameless(&mut tree),
        Some(Fault::ManifestTwoFiles) => part_file(&mut tree),
        Some(Fault::ManifestRoot) => tree.mounts.iter_mut().take(1).for_each(|mount| {
            (mount.root, mount.point) = (0, 0);
        }),
        Some(Fault::ManifestTarget) => tree.nodes.iter_mut().for_each(|node| {
            if let Node::Magic { mount, .. } = node {
                *mount = 0;
            }
        }),
        _ => {}
    }
    let written = tree.image();
    match written.len() as u64 > LONGEST_IMAGE {
        true => Err(1),
        false => Ok(written),
    }
}

/// The first body of more than a byte without its last.
fn shorten_body(tree: &mut Tree) {
    let long = tree.nodes.iter_mut().find_map(|node| match node {
        Node::Link(body) if body.len() > 1 => Some(body),
        _ => None,
    });
    if let Some(body) = long {
        *body = body.bytes[..body.len() - 1].into();
    }
}

/// Without a directory that has no name, is empty, and of which nothing speaks.
fn drop_nameless(tree: &mut Tree) {
    let is_nameless = |at: &usize| tree.is_directory(*at) && tree.parent_of(*at) != *at;
    let without = (0..tree.nodes.len()).filter(is_nameless);
    if let Some(without) = without.filter_map(|at| tree::without_node(tree, at)).next() {
        *tree = without;
    }
}

/// The second name of a file given to a file of its own.
fn part_file(tree: &mut Tree) {
    let new = tree.nodes.len();
    let is_file: Vec<bool> = tree.nodes.iter().map(|node| *node == Node::File).collect();
    let mut seen = vec![false; new];
    let mut is_again = |node: usize| is_file[node] && std::mem::replace(&mut seen[node], true);
    let entries = tree.nodes.iter_mut().flat_map(|node| match node {
        Node::Directory { entries, .. } => entries.iter_mut(),
        _ => [].iter_mut(),
    });
    if let Some(again) = entries.into_iter().find(|entry| is_again(entry.node)) {
        again.node = new;
        tree.file();
    }
}
