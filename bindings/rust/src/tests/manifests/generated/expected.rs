//! The tree that a manifest's image should hold, numbered as `Manifest` documents it.

use super::described::{At, Described, What};
use data::image::{Entry, Mount, Node, Tree};

/// Objects and mounts in the order of their numbers.
struct Order<'a> {
    of: &'a Described,
    objects: Vec<usize>,
    mounts: Vec<usize>,
}

impl Described {
    pub fn expected(&self) -> Tree {
        let mut order = Order { of: self, objects: Vec::new(), mounts: vec![0] };
        order.go_down(self.top(self.mounts[0].root));
        order.shown();
        let tops =
            order.labelled(|at| matches!(self.objects[at].what, What::Directory(p) if p == at));
        let others = order.labelled(|at| !matches!(self.objects[at].what, What::Directory(_)));
        tops.into_iter().chain(others).for_each(|at| order.go_down(at));
        let mounts = order.mounts.iter().map(|at| {
            let mount = &self.mounts[*at];
            let [root, point] = [mount.root, mount.point].map(|object| order.number(object));
            Mount { root, parent: order.mount(mount.parent), point }
        });
        let nodes = order.objects.iter().map(|at| order.node(*at));
        Tree { nodes: nodes.collect(), mounts: mounts.collect(), ..Tree::default() }
    }
}

impl Order<'_> {
    /// An object, what it names in the order of the names, and the directories without a name.
    fn go_down(&mut self, object: usize) {
        if self.objects.contains(&object) {
            return;
        }
        self.objects.push(object);
        let is_below = |at: usize| match self.of.objects[at].what {
            What::Directory(parent) => parent == object && at != object,
            _ => false,
        };
        let named = self.entries(object).into_iter().map(|(_, at)| at);
        let nameless = self.labelled(is_below);
        named.chain(nameless).collect::<Vec<_>>().into_iter().for_each(|at| self.go_down(at));
    }

    /// Names and objects.
    fn entries(&self, directory: usize) -> Vec<(Vec<u8>, usize)> {
        let of = self.of.entries.iter().filter(|(holder, _, _)| *holder == directory);
        let mut entries: Vec<_> = of.map(|(_, name, object)| (name.clone(), *object)).collect();
        entries.sort();
        entries
    }

    /// Those with a tree's name alone, by these names, the shorter first.
    fn labelled(&self, is_so: impl Fn(usize) -> bool) -> Vec<usize> {
        let objects = self.of.objects.iter().enumerate().filter(|(at, _)| is_so(*at));
        let labels = objects.filter_map(|(at, object)| match object.at {
            At::Tree(tree) => Some((self.of.labels[tree].len(), &self.of.labels[tree], at)),
            At::Entry(_) => None,
        });
        let mut labels: Vec<_> = labels.collect();
        labels.sort();
        labels.into_iter().map(|(_, _, at)| at).collect()
    }

    /// The mounts, by the numbers of the parent and of the point, and the trees that they show.
    fn shown(&mut self) {
        let all = &self.of.mounts;
        while self.mounts.len() < all.len() {
            let is_next =
                |at: &usize| !self.mounts.contains(at) && self.mounts.contains(&all[*at].parent);
            let place = |at: &usize| (self.mount(all[*at].parent), self.number(all[*at].point));
            let next = (1..all.len()).filter(is_next).min_by_key(place).unwrap();
            self.mounts.push(next);
            self.go_down(self.of.top(all[next].root));
        }
    }

    fn number(&self, object: usize) -> usize {
        self.objects.iter().position(|at| *at == object).unwrap()
    }

    fn mount(&self, mount: usize) -> usize {
        self.mounts.iter().position(|at| *at == mount).unwrap()
    }

    fn node(&self, object: usize) -> Node {
        match &self.of.objects[object].what {
            What::Directory(parent) => {
                let entries = self.entries(object).into_iter();
                let entries =
                    entries.map(|(name, at)| Entry { name: name.into(), node: self.number(at) });
                Node::Directory { parent: self.number(*parent), entries: entries.collect() }
            }
            What::File => Node::File,
            What::Link(body) => Node::Link(body.into()),
            What::Magic(mount, target) => {
                Node::Magic { mount: self.mount(*mount), node: self.number(*target) }
            }
        }
    }
}
