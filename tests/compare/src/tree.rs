//! A tree read from an accepted table, and made smaller.

use crate::resolver::{Node as Record, Table, DIRECTORY, FILE, LINK};
use data::image::{Entry, Mount, Node, Text, Tree};

/// The tree of an accepted table.
pub fn of(table: &Table) -> Tree {
    let part = |offset, length| table.text_part(offset, length).unwrap_or(b".").into();
    Tree { nodes: nodes(table, part), mounts: mounts(table), ..Tree::default() }
}

/// The same with the text as it lies: where names and bodies share much of it, an image with
/// a place for each would be too long.
pub fn in_place(table: &Table) -> Tree {
    let mut tree = Tree { mounts: mounts(table), ..Tree::default() };
    let text = tree.text(table.text);
    tree.nodes = nodes(table, |offset, length| text.part(offset as usize, length as usize));
    tree
}

fn mounts(table: &Table) -> Vec<Mount> {
    let mounts = table.mounts.iter().map(|mount| Mount {
        root: mount.root as usize,
        parent: mount.parent as usize,
        point: mount.point as usize,
    });
    mounts.collect()
}

/// The nodes, with parts of the text by offset and length.
fn nodes(table: &Table, part: impl Fn(u64, u64) -> Text) -> Vec<Node> {
    let node = |record: &Record| match record.kind {
        DIRECTORY => {
            let entries = table.entries_of(record).iter().map(|entry| Entry {
                name: part(entry.offset, entry.length),
                node: entry.node as usize,
            });
            Node::Directory { parent: record.parent as usize, entries: entries.collect() }
        }
        FILE => Node::File,
        LINK => Node::Link(part(record.first, record.count)),
        _ => Node::Magic { mount: record.first as usize, node: record.count as usize },
    };
    table.nodes.iter().map(node).collect()
}

/// Numbers above the one that is gone are one less.
fn lower(gone: usize) -> impl Fn(&mut usize) {
    move |number| *number -= usize::from(*number > gone)
}

/// Whether a node is named, mounted, led to, or the parent of another.
fn is_used(tree: &Tree, gone: usize) -> bool {
    let by_node = |(number, node): (usize, &Node)| match node {
        Node::Directory { parent, entries } => {
            (*parent == gone && number != gone) || entries.iter().any(|entry| entry.node == gone)
        }
        Node::Magic { node, .. } => *node == gone,
        _ => false,
    };
    tree.mounts.iter().any(|mount| mount.root == gone || mount.point == gone)
        || tree.nodes.iter().enumerate().any(by_node)
}

/// Without a node that nothing refers to; none if something does.
pub fn without_node(tree: &Tree, gone: usize) -> Option<Tree> {
    if gone >= tree.nodes.len() || is_used(tree, gone) {
        return None;
    }
    let lower = lower(gone);
    let mut tree = tree.clone();
    tree.nodes.remove(gone);
    for node in &mut tree.nodes {
        match node {
            Node::Directory { parent, entries } => {
                lower(parent);
                entries.iter_mut().for_each(|entry| lower(&mut entry.node));
            }
            Node::Magic { node, .. } => lower(node),
            _ => {}
        }
    }
    for mount in &mut tree.mounts {
        lower(&mut mount.root);
        lower(&mut mount.point);
    }
    Some(tree)
}

/// Without a mount that nothing refers to; none if something does.
pub fn without_mount(tree: &Tree, gone: usize) -> Option<Tree> {
    let leads = |node: &Node| matches!(node, Node::Magic { mount, .. } if *mount == gone);
    let used = tree.mounts.iter().any(|mount| mount.parent == gone) || tree.nodes.iter().any(leads);
    if used || gone == 0 || gone >= tree.mounts.len() {
        return None;
    }
    let lower = lower(gone);
    let mut tree = tree.clone();
    tree.mounts.remove(gone);
    for mount in &mut tree.mounts {
        lower(&mut mount.parent);
    }
    for node in &mut tree.nodes {
        if let Node::Magic { mount, .. } = node {
            lower(mount);
        }
    }
    Some(tree)
}
