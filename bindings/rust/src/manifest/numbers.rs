//! The numbers of nodes and mounts, by the tree alone.

use super::layout::Layout;

/// Nodes and mounts in the order of their numbers, by their places in the layout's lists.
pub(super) struct Numbers {
    pub nodes: Vec<usize>,
    pub mounts: Vec<usize>,
    node_numbers: Vec<Option<usize>>,
    mount_numbers: Vec<Option<usize>>,
    tops: Vec<Option<usize>>,
}

impl Numbers {
    pub fn of(layout: &Layout) -> Self {
        let mut numbers = Numbers {
            nodes: Vec::new(),
            mounts: Vec::new(),
            node_numbers: vec![None; layout.nodes.len()],
            mount_numbers: vec![None; layout.mounts.len()],
            tops: tops(layout),
        };
        numbers.shown(layout);
        // Of what is left: tops, then directories whose parents lead in a ring, then the rest.
        let mut rest: Vec<usize> = (0..layout.nodes.len()).collect();
        rest.sort_by_key(|at| {
            let node = &layout.nodes[*at];
            (!node.is_directory(), node.parent.is_some(), node.rank())
        });
        rest.into_iter().for_each(|at| numbers.tree(layout, at));
        numbers
    }

    pub fn node(&self, at: usize) -> usize {
        self.node_numbers[at].unwrap_or_default()
    }

    pub fn mount(&self, at: usize) -> usize {
        self.mount_numbers[at].unwrap_or_default()
    }

    /// Numbers what is in a tree, from a directory down: it, what it names in the names' order,
    /// each with all below it, then the directories in it that have no name.
    fn tree(&mut self, layout: &Layout, top: usize) {
        let mut waiting = vec![top];
        while let Some(at) = waiting.pop() {
            if self.node_numbers[at].is_some() {
                continue;
            }
            self.node_numbers[at] = Some(self.nodes.len());
            self.nodes.push(at);
            let node = &layout.nodes[at];
            // A directory comes after its parent, and so not by a second name elsewhere.
            let is_in = |to: &usize| {
                let to = &layout.nodes[*to];
                !to.is_directory() || to.parent == Some(at)
            };
            waiting.extend(node.nameless.iter().rev());
            waiting.extend(node.entries.iter().rev().map(|entry| entry.node).filter(is_in));
        }
    }

    /// Numbers mounts, each behind its parent, and the trees that they show.
    fn shown(&mut self, layout: &Layout) {
        let mut on: Vec<Vec<usize>> = vec![Vec::new(); layout.mounts.len()];
        let mounts = layout.mounts.iter().enumerate().skip(1);
        mounts.for_each(|(at, mount)| on[mount.parent].push(at));
        self.show(layout, 0);
        let mut next = 0;
        while let Some(&parent) = self.mounts.get(next) {
            next += 1;
            let mut mounts = std::mem::take(&mut on[parent]);
            // Points that have no number yet are not in the parent: the builder refuses these.
            mounts.sort_by_key(|at| {
                let point = self.node_numbers[layout.mounts[*at].point];
                (point.is_none(), point)
            });
            mounts.into_iter().for_each(|at| self.show(layout, at));
        }
        // What is left hangs in a ring, which the builder refuses too.
        let rest: Vec<usize> =
            (1..layout.mounts.len()).filter(|at| self.mount_numbers[*at].is_none()).collect();
        rest.into_iter().for_each(|at| self.show(layout, at));
    }

    fn show(&mut self, layout: &Layout, mount: usize) {
        self.mount_numbers[mount] = Some(self.mounts.len());
        self.mounts.push(mount);
        if let Some(top) = self.tops[layout.mounts[mount].root] {
            self.tree(layout, top);
        }
    }
}

/// Of each directory the top of the tree that it is in. There is none above a ring of parents.
fn tops(layout: &Layout) -> Vec<Option<usize>> {
    let nodes = &layout.nodes;
    let mut tops = vec![None; nodes.len()];
    let is_top = |at: &usize| nodes[*at].is_directory() && nodes[*at].parent.is_none();
    let mut waiting: Vec<(usize, usize)> =
        (0..nodes.len()).filter(is_top).map(|at| (at, at)).collect();
    while let Some((at, top)) = waiting.pop() {
        if tops[at].replace(top).is_some() {
            continue;
        }
        let named = nodes[at].entries.iter().map(|entry| entry.node);
        let all = named.chain(nodes[at].nameless.iter().copied());
        let below = all.filter(|to| nodes[*to].parent == Some(at));
        waiting.extend(below.map(|to| (to, top)));
    }
    tops
}
