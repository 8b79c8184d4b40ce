//! Pairs of tables made smaller: each by itself, then both at once.

use super::{mount_of, node_of, shorter, Field, Shrinker};
use crate::case::{Call, Case};
use crate::pair::Pair;
use crate::resolver::accept;
use crate::tree;
use data::image::{Node, Tree};

/// The trees of both tables.
type Both = [Tree; 2];

impl Shrinker<'_> {
    /// One table twice, if that will do; the second table, then what both tables have.
    pub(super) fn shrink_pair(&mut self) {
        let Case::Pair(pair) = self.best.clone() else { return };
        for call in pair.calls() {
            let other = call.image.clone();
            self.attempt(Case::Pair(Pair { call, other, is_common: true, ..pair.clone() }));
        }
        self.turn();
        self.shrink_table();
        self.turn();
        self.shrink_both();
    }

    /// The second table becomes the first.
    fn turn(&mut self) {
        if let Case::Pair(pair) = &self.best {
            let turned = pair.turned();
            self.attempt(Case::Pair(turned));
        }
    }

    fn both(&self) -> Option<Both> {
        let Case::Pair(pair) = &self.best else { return None };
        let [one, two] = [&pair.call.image, &pair.other].map(|image| accept(image).ok());
        Some([tree::of(&one?), tree::of(&two?)])
    }

    /// The best case with other trees for its tables.
    fn attempt_both(&mut self, [one, two]: &Both, change: impl FnOnce(&mut Case)) -> bool {
        let Case::Pair(Pair { call, steps, is_common, .. }) = self.best.clone() else {
            return false;
        };
        let call = Call { image: one.shared_image(), ..call };
        let other = two.shared_image();
        let mut candidate = Case::Pair(Pair { call, other, steps, is_common });
        change(&mut candidate);
        self.attempt(candidate)
    }

    fn shrink_both(&mut self) {
        let Some(mut both) = self.both() else { return };
        for number in (0..both[0].nodes.len()).rev() {
            self.shrink_both_nodes(&mut both, number);
        }
        for number in (0..both[0].mounts.len()).rev() {
            self.without(&mut both, number, tree::without_mount, mount_of);
        }
        for number in (0..both[0].nodes.len()).rev() {
            self.without(&mut both, number, tree::without_node, node_of);
        }
    }

    /// Fewer names in a directory of both, and a shorter body.
    fn shrink_both_nodes(&mut self, both: &mut Both, number: usize) {
        let names = both[0].entries_of(number).unwrap_or(&[]).iter();
        for name in names.map(|entry| entry.name.bytes.clone()).collect::<Vec<_>>() {
            self.attempt_nodes(both, number, |node| {
                if let Node::Directory { entries, .. } = node {
                    entries.retain(|entry| entry.name.bytes != name);
                }
            });
        }
        if let Node::Link(body) = both[0].nodes[number].clone() {
            let mut bodies = shorter(&body.bytes).into_iter();
            bodies.any(|body| {
                self.attempt_nodes(both, number, |node| *node = Node::Link(body.clone().into()))
            });
        }
    }

    /// The node of this number changed in both.
    fn attempt_nodes(
        &mut self,
        both: &mut Both,
        number: usize,
        change: impl Fn(&mut Node),
    ) -> bool {
        let mut candidate = both.clone();
        candidate.iter_mut().filter_map(|tree| tree.nodes.get_mut(number)).for_each(change);
        let helped = self.attempt_both(&candidate, |_| {});
        if helped {
            *both = candidate;
        }
        helped
    }

    /// Both without the record of this number.
    fn without(
        &mut self,
        both: &mut Both,
        gone: usize,
        without: fn(&Tree, usize) -> Option<Tree>,
        field: Field,
    ) {
        let [Some(one), Some(two)] = [&both[0], &both[1]].map(|tree| without(tree, gone)) else {
            return;
        };
        let candidate = [one, two];
        let gone = gone as u64;
        let is_given = field(&mut self.best).is_some_and(|number| *number == gone);
        let lower = |case: &mut Case| {
            if let Some(number) = field(case) {
                *number -= u64::from(*number > gone);
            }
        };
        if !is_given && self.attempt_both(&candidate, lower) {
            *both = candidate;
        }
    }
}
