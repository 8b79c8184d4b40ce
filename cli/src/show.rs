//! A table as a tree, to be read.

use crate::{escape, place};
use std::fmt::Write;
use ventolaire::{Node, Place, Table};

/// The mounts, then the nodes: each tree from its top, and what no directory
/// names. A directory stands where it is first named, each once.
pub fn tree(table: &Table) -> String {
    let mut out = String::from("mounts\n");
    // Writing to a string does not fail, here and below.
    for (number, mount) in table.mounts() {
        let root = place::text(Place { mount: number, node: mount.root });
        let _ = match number {
            0 => writeln!(out, "{number:>5}  root {root}"),
            _ => writeln!(out, "{number:>5}  root {root}, on {}", place::text(mount.place())),
        };
    }
    out.push_str("nodes\n");
    let lists = Lists::of(table);
    let mut shown = vec![false; table.nodes().len()];
    for (top, node) in table.nodes() {
        if matches!(node, Node::Directory { parent, .. } if parent == top) {
            write_tree(&mut out, table, &lists, &mut shown, top);
        }
    }
    for (number, node) in table.nodes().filter(|(number, _)| !shown[*number as usize]) {
        let _ = writeln!(out, "{number:>5}  (no name){}", about(&node));
    }
    out
}

/// Of each node, the directories in it that have no name.
pub fn nameless(table: &Table) -> Vec<Vec<u64>> {
    let mut nameless = vec![Vec::new(); table.nodes().len()];
    for (number, parent) in table.nameless() {
        nameless[parent as usize].push(number);
    }
    nameless
}

/// That a mount covers a place.
pub fn covers(mount: u64, covered: Place) -> String {
    format!("mount {mount} covers {}", place::text(covered))
}

/// What the records do not say at once.
struct Lists {
    nameless: Vec<Vec<u64>>,
    /// Of each node, its parts in mounts, in words.
    mounts: Vec<Vec<String>>,
}

impl Lists {
    fn of(table: &Table) -> Self {
        let mut mounts = vec![Vec::new(); table.nodes().len()];
        for (number, mount) in table.mounts() {
            mounts[mount.root as usize].push(format!("root of mount {number}"));
            if number > 0 {
                mounts[mount.point as usize].push(covers(number, mount.place()));
            }
        }
        Lists { nameless: nameless(table), mounts }
    }
}

/// A line to be written: a node with its name, below a directory or not.
#[derive(Default)]
struct Line {
    number: u64,
    name: String,
    /// What stands before it, and before the lines below it.
    before: String,
    before_below: String,
}

fn write_tree(out: &mut String, table: &Table, lists: &Lists, shown: &mut [bool], top: u64) {
    // A stack of its own: trees may be thousands of directories deep.
    let mut waiting = vec![Line { number: top, ..Line::default() }];
    while let Some(line) = waiting.pop() {
        let Some(node) = table.node(line.number) else { continue };
        let at = line.number as usize;
        let Line { number, name, before, .. } = &line;
        let _ = write!(out, "{number:>5}  {before}{name}{}", about(&node));
        if !lists.mounts[at].is_empty() {
            let _ = write!(out, "  [{}]", lists.mounts[at].join("; "));
        }
        let was_shown = std::mem::replace(&mut shown[at], true);
        match node {
            Node::Directory { .. } if was_shown => out.push_str("  (shown above)"),
            Node::Directory { .. } => waiting.extend(below(&line, node, &lists.nameless[at])),
            _ => {}
        }
        out.push('\n');
    }
}

/// The lines below a directory's, the last one first.
fn below<'a>(line: &'a Line, node: Node<'a>, nameless: &'a [u64]) -> Vec<Line> {
    let Node::Directory { entries, .. } = node else { return Vec::new() };
    let named = entries.map(|entry| (escape::text(entry.name), entry.node));
    let nameless = nameless.iter().map(|&to| ("(no name)".into(), to));
    let mut lines: Vec<Line> = named
        .chain(nameless)
        .map(|(name, number)| Line {
            number,
            name,
            before: format!("{}├── ", line.before_below),
            before_below: format!("{}│   ", line.before_below),
        })
        .collect();
    if let Some(last) = lines.last_mut() {
        last.before = format!("{}└── ", line.before_below);
        last.before_below = format!("{}    ", line.before_below);
    }
    lines.reverse();
    lines
}

/// What a node is, to stand behind its name.
fn about(node: &Node) -> String {
    match node {
        Node::Directory { .. } => "/".into(),
        _ => lead(node),
    }
}

/// Where a link leads, to stand behind its name.
pub fn lead(node: &Node) -> String {
    match node {
        Node::Link { body, .. } => format!(" -> {}", escape::text(body)),
        Node::MagicLink { target, .. } => format!(" => {}", place::text(*target)),
        _ => String::new(),
    }
}
