//! A table as JSON.

use crate::json::Object;
use ventolaire::{Kind, Mount, Node, Place, Table};

/// All mounts and nodes, each with its number.
pub fn table(table: &Table) -> Object {
    let mounts = table.mounts().map(|(number, record)| mount(number, record));
    let nodes = table.nodes().map(|(number, record)| node(number, record));
    Object::new().list("mounts", mounts).list("nodes", nodes)
}

fn mount(number: u64, mount: Mount) -> Object {
    let root = Place { mount: number, node: mount.root };
    let object = Object::new().with("mount", number).place("root", root);
    match number {
        0 => object,
        _ => object.place("on", mount.place()),
    }
}

fn node(number: u64, node: Node) -> Object {
    let object = Object::new().with("node", number).text("kind", kind(&node)).and(lead(&node));
    match node {
        Node::Directory { parent, entries, .. } => {
            // A top has none above it.
            let object = if parent == number { object } else { object.with("parent", parent) };
            let entry = |name| Object::new().bytes("name", name);
            object.list("entries", entries.map(|e| entry(e.name).with("node", e.node)))
        }
        _ => object,
    }
}

pub fn kind(node: &Node) -> &'static str {
    match node.kind() {
        Kind::Directory => "directory",
        Kind::Link => "link",
        Kind::MagicLink => "magic_link",
        _ => "file",
    }
}

/// The member that tells where a link leads.
pub fn lead(node: &Node) -> Object {
    match node {
        Node::Link { body, .. } => Object::new().bytes("body", body),
        Node::MagicLink { target, .. } => Object::new().place("target", *target),
        _ => Object::new(),
    }
}
