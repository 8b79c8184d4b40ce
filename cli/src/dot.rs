//! A table as a graph, in Graphviz's language.

use crate::show::nameless;
use crate::{escape, place};
use std::fmt::Write;
use ventolaire::{Node, Table};

/// Boxes for nodes, arrows for entries, dotted ones to directories without a name,
/// dashed ones for magic links, bold ones to the roots of mounts: from their
/// points, and to mount 0's from a box of its own.
pub fn graph(table: &Table) -> String {
    let mut out = String::from("digraph table {\n  rankdir=LR;\n  node [shape=box];\n");
    // Writing to a string does not fail, here and below.
    for (number, node) in table.nodes() {
        let (shape, body) = match node {
            Node::Directory { .. } => ("folder", String::new()),
            Node::Link { body, .. } => ("cds", format!("\\n{}", label(body))),
            Node::MagicLink { .. } => ("cds", String::new()),
            _ => ("note", String::new()),
        };
        let _ = writeln!(out, "  n{number} [shape={shape}, label=\"{number}{body}\"];");
    }
    let nameless = nameless(table);
    for (number, node) in table.nodes() {
        write_arrows(&mut out, number, node, &nameless[number as usize]);
    }
    for (number, mount) in table.mounts() {
        let (point, root) = (mount.point, mount.root);
        let on = place::text(mount.place());
        let _ = match number {
            0 => writeln!(
                out,
                "  mount0 [shape=plaintext, label=\"mount 0\"];\n  mount0 -> n{root} [style=bold];"
            ),
            _ => writeln!(
                out,
                "  n{point} -> n{root} [style=bold, label=\"mount {number} on {on}\"];"
            ),
        };
    }
    out.push_str("}\n");
    out
}

fn write_arrows(out: &mut String, number: u64, node: Node, nameless: &[u64]) {
    match node {
        Node::Directory { entries, .. } => {
            for entry in entries {
                let (to, name) = (entry.node, label(entry.name));
                let _ = writeln!(out, "  n{number} -> n{to} [label=\"{name}\"];");
            }
            for to in nameless {
                let _ = writeln!(out, "  n{number} -> n{to} [style=dotted];");
            }
        }
        Node::MagicLink { target, .. } => {
            let (to, at) = (target.node, place::text(target));
            let _ = writeln!(out, "  n{number} -> n{to} [style=dashed, label=\"{at}\"];");
        }
        _ => {}
    }
}

/// Bytes to stand in a label between double quotes. There a backslash begins an
/// escape, and an ampersand the name of a character, as in HTML.
fn label(bytes: &[u8]) -> String {
    let text = escape::text(bytes);
    text.replace('\\', "\\\\").replace('"', "\\\"").replace('&', "&amp;")
}

#[cfg(test)]
mod tests {
    use super::label;

    #[test]
    fn labels_are_escaped() {
        assert_eq!(label(b"a&lt;\"\\N\n"), "a&amp;lt;\\\"\\\\\\\\N\\\\n");
    }
}
