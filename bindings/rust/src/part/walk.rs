//! The places that are reachable from one, found.

use crate::{Entries, Node, Place, Table};
use std::collections::HashMap;

/// How a place is reached.
#[derive(Clone, Copy)]
pub(super) struct Step<'a> {
    pub(super) place: Place,
    /// From which place, by its number in the part; the handle's is its own.
    pub(super) from: usize,
    /// By which name; by none where a mount is entered.
    pub(super) name: Option<&'a [u8]>,
}

/// Of each covered place, the root of the mount that covers it.
#[derive(Clone)]
pub(super) struct Covers(HashMap<Place, Place>);

impl Covers {
    pub(super) fn of(table: &Table) -> Self {
        // Mount 0 covers nothing.
        let covering = table.mounts().skip(1);
        let roots = covering
            .map(|(number, mount)| (mount.place(), Place { mount: number, node: mount.root }));
        Covers(roots.collect())
    }

    pub(super) fn root_on(&self, place: Place) -> Option<Place> {
        self.0.get(&place).copied()
    }
}

/// Places of a table that were met: a flag for each mount and node.
#[derive(Clone)]
pub(super) struct Seen {
    nodes: u64,
    flags: Vec<bool>,
}

impl Seen {
    fn none_of(table: &Table) -> Self {
        let (mounts, nodes) = (table.mounts().len(), table.nodes().len());
        Seen { nodes: nodes as u64, flags: vec![false; mounts * nodes] }
    }

    pub(super) fn has(&self, place: Place) -> bool {
        self.flag(place).is_some_and(|at| self.flags[at])
    }

    /// Notes a place; whether it is new.
    fn note(&mut self, place: Place) -> bool {
        self.flag(place).is_some_and(|at| !std::mem::replace(&mut self.flags[at], true))
    }

    /// The number of a place's flag, if there are such a mount and node.
    fn flag(&self, Place { mount, node }: Place) -> Option<usize> {
        let before = mount.checked_mul(self.nodes).filter(|_| node < self.nodes)?;
        let at = usize::try_from(before.checked_add(node)?).ok()?;
        (at < self.flags.len()).then_some(at)
    }
}

/// What is reachable from a place.
pub(super) fn from<'a>(table: &Table<'a>, covers: &Covers, place: Place) -> (Vec<Step<'a>>, Seen) {
    let (steps, seen) = (Vec::new(), Seen::none_of(table));
    let mut walk = Walk { table: *table, covers, steps, seen, open: Vec::new() };
    walk.reach(Step { place, from: 0, name: None });
    while let Some((from, entries)) = walk.open.last_mut() {
        let from = *from;
        match entries.next() {
            Some(entry) => {
                let place = Place { node: entry.node, ..walk.steps[from].place };
                walk.reach(Step { place, from, name: Some(entry.name) });
            }
            None => _ = walk.open.pop(),
        }
    }
    (walk.steps, walk.seen)
}

struct Walk<'a, 'c> {
    table: Table<'a>,
    covers: &'c Covers,
    steps: Vec<Step<'a>>,
    seen: Seen,
    /// The directories that are gone through, the deepest last, each with the entries left. A list
    /// of its own: they may be hundreds of thousands.
    open: Vec<(usize, Entries<'a>)>,
}

impl<'a> Walk<'a, '_> {
    /// Adds a place that is new, and the root of the mount on it.
    fn reach(&mut self, mut step: Step<'a>) {
        while self.seen.note(step.place) {
            let from = self.steps.len();
            self.steps.push(step);
            match self.covers.root_on(step.place) {
                Some(place) => step = Step { place, from, name: None },
                None => return self.open(from, step.place.node),
            }
        }
    }

    fn open(&mut self, at: usize, node: u64) {
        if let Some(Node::Directory { entries, .. }) = self.table.node(node) {
            self.open.push((at, entries));
        }
    }
}
