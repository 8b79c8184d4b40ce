//! What a handle's part has in it, and what another table that has it in common changes: for the
//! statistics.

use crate::resolver::{Node, Place, Table, DIRECTORY, FILE, LINK, MAGIC};
use std::collections::BTreeSet;

/// A handle's part of a table.
pub struct Part<'a> {
    table: &'a Table<'a>,
    handle: Place,
    reached: &'a BTreeSet<Place>,
    nodes: BTreeSet<u64>,
    /// The directories whose entries belong to the part, being uncovered somewhere in it.
    listed: BTreeSet<u64>,
}

/// What is so of several things.
fn noted<const N: usize>(things: [(&'static str, bool); N]) -> Vec<&'static str> {
    things.into_iter().filter(|(_, is_so)| *is_so).map(|(name, _)| name).collect()
}

fn names<'a>(table: &Table<'a>, directory: &Node) -> Vec<Option<&'a [u8]>> {
    table.entries_of(directory).iter().map(|entry| table.name(entry)).collect()
}

fn named(table: &Table, directory: &Node) -> Vec<u64> {
    table.entries_of(directory).iter().map(|entry| entry.node).collect()
}

fn body<'a>(table: &Table<'a>, link: &Node) -> &'a [u8] {
    table.text_part(link.first, link.count).unwrap_or_default()
}

impl<'a> Part<'a> {
    pub fn of(table: &'a Table<'a>, reached: &'a BTreeSet<Place>, handle: Place) -> Part<'a> {
        let is_listed =
            |place: &&Place| table.is_directory(place.node) && table.covering(**place).is_none();
        let listed = reached.iter().filter(is_listed).map(|place| place.node).collect();
        let nodes = reached.iter().map(|place| place.node).collect();
        Part { table, handle, reached, nodes, listed }
    }

    fn of_kind(&self, kind: u64) -> impl Iterator<Item = &Node> {
        let nodes = self.nodes.iter().filter_map(|number| self.table.node(*number));
        nodes.filter(move |node| node.kind == kind)
    }

    /// What there is in it.
    pub fn traits(&self) -> Vec<&'static str> {
        let Part { table, handle, reached, nodes, .. } = self;
        let begins =
            |with: &[u8]| self.of_kind(LINK).any(|link| body(table, link).starts_with(with));
        let is_root = table.mount(handle.mount).is_some_and(|mount| mount.root == handle.node);
        noted([
            ("handle: mount 0's root", is_root && handle.mount == 0),
            ("handle: another mount's root", is_root && handle.mount != 0),
            ("handle: below mount 0's root", !is_root && handle.mount == 0),
            ("handle: below another root", !is_root && handle.mount != 0),
            ("no more than the handle", reached.len() == 1),
            ("all nodes", nodes.len() == table.nodes.len()),
            ("link up", begins(b"..")),
            ("absolute link", begins(b"/")),
            ("magic link", self.of_kind(MAGIC).next().is_some()),
            ("mount", reached.iter().any(|place| place.mount != handle.mount)),
            ("node at two places", nodes.len() < reached.len()),
        ])
    }

    /// What differs in a table that has the part in common.
    pub fn changes(&self, other: &Table) -> BTreeSet<&'static str> {
        let counts = |table: &Table| [table.nodes.len(), table.mounts.len(), table.entries.len()];
        let ([nodes, mounts, entries], others) = (counts(self.table), counts(other));
        let counted = noted([
            ("more nodes", others[0] > nodes),
            ("fewer nodes", others[0] < nodes),
            ("more mounts", others[1] > mounts),
            ("fewer mounts", others[1] < mounts),
            ("more entries", others[2] > entries),
            ("fewer entries", others[2] < entries),
            ("text", self.table.text != other.text),
        ]);
        let nodes = (0..).zip(self.table.nodes.iter().zip(&other.nodes));
        let nodes = nodes.flat_map(|(number, (one, two))| match self.nodes.contains(&number) {
            true => self.inside(other, number, (one, two)),
            false => self.outside(other, (one, two)),
        });
        counted.into_iter().chain(nodes).chain(self.mounts(other)).collect()
    }

    /// Of a node of the part, what is not asked to be the same.
    fn inside(&self, other: &Table, number: u64, (one, two): (&Node, &Node)) -> Vec<&'static str> {
        let is_moved = (one.first, one.count) != (two.first, two.count);
        let is_hung = one.parent != two.parent;
        let is_listed = self.listed.contains(&number);
        let holds_other = names(self.table, one) != names(other, two)
            || named(self.table, one) != named(other, two);
        let is_handle = number == self.handle.node;
        match one.kind {
            DIRECTORY => noted([
                ("numbers of the part's entries", is_listed && is_moved),
                ("what a covered directory holds", !is_listed && holds_other),
                ("parent of the handle's node", is_hung && is_handle),
                ("handle's node a top", is_hung && is_handle && two.parent == number),
                ("parent of a mount's root", is_hung && !is_handle),
            ]),
            LINK => noted([("where the part's body lies", is_moved)]),
            MAGIC => noted([("target of the part's link", is_moved)]),
            _ => Vec::new(),
        }
    }

    fn outside(&self, other: &Table, (one, two): (&Node, &Node)) -> Vec<&'static str> {
        let target = |link: &Node| (link.first, link.count);
        match one.kind {
            kind if kind != two.kind => vec!["kind of a node"],
            DIRECTORY => noted([
                ("parent of a directory", one.parent != two.parent),
                ("number of names", one.count != two.count),
                ("names in a directory", names(self.table, one) != names(other, two)),
                ("nodes in a directory", named(self.table, one) != named(other, two)),
            ]),
            LINK => noted([("body", body(self.table, one) != body(other, two))]),
            FILE => Vec::new(),
            _ => noted([("target", target(one) != target(two))]),
        }
    }

    fn mounts(&self, other: &Table) -> Vec<&'static str> {
        let mounts = (0..).zip(self.table.mounts.iter().zip(&other.mounts));
        let changes = mounts.flat_map(|(number, (one, two))| {
            let is_rooted = one.root != two.root;
            let is_hung = (one.parent, one.point) != (two.parent, two.point);
            let is_handles = number == self.handle.mount;
            noted([
                ("root of mount 0", is_rooted && number == 0),
                ("root of the handle's mount", is_rooted && number != 0 && is_handles),
                ("root of another mount", is_rooted && number != 0 && !is_handles),
                ("point of the handle's mount", is_hung && number != 0 && is_handles),
                ("point of another mount", is_hung && number != 0 && !is_handles),
            ])
        });
        changes.collect()
    }
}
