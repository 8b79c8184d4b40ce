//! What was read, put together: a node for each object, whatever names and mounts show it.

use std::collections::{BTreeMap, HashMap};
use std::ffi::OsStr;
use std::fs::Metadata;
use std::os::unix::ffi::OsStrExt;
use std::os::unix::fs::MetadataExt;
use std::path::{Path, PathBuf};
use ventolaire::{Manifest, ManifestError, Parts, Problem};

/// By what an object is known again: its device and its inode.
#[derive(Clone, Copy, PartialEq, Eq, Hash)]
pub struct Identity(u64, u64);

impl From<&Metadata> for Identity {
    fn from(data: &Metadata) -> Self {
        Identity(data.dev(), data.ino())
    }
}

pub enum Kind {
    /// With the nodes that it names.
    Directory(BTreeMap<Vec<u8>, usize>),
    File,
    Link(Vec<u8>),
}

struct Node {
    kind: Kind,
    /// Of a directory, but for the top of a tree.
    parent: Option<usize>,
}

struct Mount {
    parent: usize,
    point: usize,
    /// None as long as it was not looked into.
    root: Option<usize>,
    /// From the directory that is packed.
    path: PathBuf,
}

pub struct Tree {
    /// First the directory that mount 0 shows.
    nodes: Vec<Node>,
    mounts: Vec<Mount>,
    known: HashMap<Identity, usize>,
    /// How many bytes all names and bodies have.
    text: usize,
    /// With how many the builder is asked next.
    asked_at: usize,
}

impl Tree {
    pub fn new() -> Self {
        let mut tree = Tree {
            nodes: Vec::new(),
            mounts: Vec::new(),
            known: HashMap::new(),
            text: 0,
            asked_at: Parts::IMAGE_MAX / 16,
        };
        let root = tree.add(Kind::Directory(BTreeMap::new()), None);
        let path = PathBuf::new();
        tree.mounts.push(Mount { parent: 0, point: root, root: Some(root), path });
        tree
    }

    fn add(&mut self, kind: Kind, parent: Option<usize>) -> usize {
        self.nodes.push(Node { kind, parent });
        self.nodes.len() - 1
    }

    fn entry(&self, directory: usize, name: &[u8]) -> Option<usize> {
        match &self.nodes[directory].kind {
            Kind::Directory(entries) => entries.get(name).copied(),
            _ => None,
        }
    }

    fn name(&mut self, directory: usize, name: &[u8], node: usize) {
        if let Kind::Directory(entries) = &mut self.nodes[directory].kind {
            if entries.insert(name.into(), node).is_none() {
                self.text += name.len();
            }
        }
    }

    /// The directory of a name. One that has an identity is the same wherever it is met: it may
    /// be the top of a tree till now, or a point whose mount has hidden what it is.
    pub fn directory(&mut self, parent: usize, name: &[u8], identity: Option<Identity>) -> usize {
        let is_directory = |at: &usize| matches!(self.nodes[*at].kind, Kind::Directory(_));
        let known = identity.and_then(|identity| self.known.get(&identity).copied());
        // Meanwhile a file may have made way for it.
        let (known, there) =
            (known.filter(is_directory), self.entry(parent, name).filter(is_directory));
        let node = match known.or(there) {
            Some(node) => node,
            None => self.add(Kind::Directory(BTreeMap::new()), None),
        };
        let points = self.mounts.iter_mut().filter(|mount| there == Some(mount.point));
        points.for_each(|mount| mount.point = node);
        self.nodes[node].parent = Some(parent);
        self.name(parent, name, node);
        self.know(identity, node);
        node
    }

    /// A file or link by one more name. A name that was met in another mount stays what it was
    /// there.
    pub fn leaf(&mut self, directory: usize, name: &[u8], identity: Identity, kind: Kind) {
        if self.entry(directory, name).is_some() {
            return;
        }
        let node = match self.known.get(&identity) {
            Some(node) => *node,
            None => {
                self.text += if let Kind::Link(body) = &kind { body.len() } else { 0 };
                self.add(kind, None)
            }
        };
        self.know(Some(identity), node);
        self.name(directory, name, node);
    }

    /// A mount on a name. What it hides is a directory in which nothing is seen.
    pub fn mount(&mut self, parent: usize, directory: usize, name: &[u8]) {
        let point = match self.entry(directory, name) {
            Some(point) => point,
            None => self.directory(directory, name, None),
        };
        self.mounts.push(Mount { parent, point, root: None, path: PathBuf::new() });
    }

    /// The directory that a mount shows: one that is known, or the top of a tree of its own.
    pub fn show(&mut self, mount: usize, identity: Identity, path: &Path) -> usize {
        let root = match (mount, self.known.get(&identity)) {
            (0, _) => 0,
            (_, Some(root)) => *root,
            (_, None) => self.add(Kind::Directory(BTreeMap::new()), None),
        };
        self.know(Some(identity), root);
        self.mounts[mount].root = Some(root);
        self.mounts[mount].path = path.into();
        root
    }

    /// A path of the manifest as it is on the system, from the directory that is packed: that of
    /// a mount that shows its tree, with the names behind it.
    pub fn real(&self, path: &[u8]) -> PathBuf {
        let slash = path.iter().position(|byte| *byte == b'/').unwrap_or(path.len());
        let (tree, names) = path.split_at(slash);
        let tree = if tree.is_empty() { b"/" } else { tree };
        let top = self.tops().into_iter().find(|(_, path)| path == tree).map(|(top, _)| top);
        let shows = |mount: &&Mount| mount.root == top;
        let shown = self.mounts.iter().find(shows).map(|mount| mount.path.clone());
        let names = names.strip_prefix(b"/").unwrap_or(names);
        shown.unwrap_or_default().join(OsStr::from_bytes(names))
    }

    fn know(&mut self, identity: Option<Identity>, node: usize) {
        identity.map(|identity| self.known.insert(identity, node));
    }

    /// Whether more was read than an image can hold. The builder is asked seldom: each time that
    /// names and bodies have twice as many bytes, at last with as many as a whole image.
    pub fn is_full(&mut self) -> Option<ManifestError> {
        if self.text < self.asked_at {
            return None;
        }
        self.asked_at *= 2;
        // Two nodes may turn out to be one where there are mounts, but no name or body goes.
        if self.mounts.len() > 1 && self.text < Parts::IMAGE_MAX {
            return None;
        }
        // What else is wrong may be set right by what is still to be read.
        let is_limit = |error: &ManifestError| match &error.problem {
            Problem::Broken { broken, .. } => broken.rule == 1 || broken.rule == 3,
            _ => false,
        };
        self.manifest().build().err().filter(is_limit)
    }

    pub fn manifest(&self) -> Manifest {
        let mut manifest = Manifest::new();
        let paths = self.describe(&mut manifest);
        if self.nodes[0].parent.is_some() {
            manifest.root(&paths[0]);
        }
        for (number, mount) in self.mounts.iter().enumerate().skip(1) {
            let Some(root) = mount.root else { continue };
            let (name, root, point) = (mount_name(number), &paths[root], &paths[mount.point]);
            match mount.parent {
                0 => manifest.mount_as(name, root, point),
                parent => manifest.mount_as(name, root, (point, mount_name(parent))),
            };
        }
        manifest
    }

    /// Adds all nodes to a manifest, each tree from its top: their first paths.
    fn describe(&self, manifest: &mut Manifest) -> Vec<Vec<u8>> {
        let mut paths = vec![Vec::new(); self.nodes.len()];
        let mut waiting = self.tops();
        while let Some((node, path)) = waiting.pop() {
            // A directory has two paths only if it was moved meanwhile: the builder refuses that.
            if !paths[node].is_empty() {
                manifest.hard_link(path, &paths[node]);
                continue;
            }
            match &self.nodes[node].kind {
                Kind::Directory(entries) => {
                    manifest.directory(&path);
                    // Of slashes in a row one counts: the main top's path is one.
                    let below = |name: &[u8]| [&path, &b"/"[..], name].concat();
                    let below = entries.iter().map(|(name, node)| (*node, below(name)));
                    waiting.extend(below.rev());
                }
                Kind::File => {
                    manifest.file(&path);
                }
                Kind::Link(body) => {
                    manifest.link(&path, body);
                }
            }
            paths[node] = path;
        }
        paths
    }

    /// The tops of all trees with their paths, the main tree's last.
    fn tops(&self) -> Vec<(usize, Vec<u8>)> {
        // Of directories that were moved meanwhile the parents may lead in a ring.
        let above = std::iter::successors(Some(0), |at: &usize| self.nodes[*at].parent);
        let main = above.take(self.nodes.len()).last().unwrap_or_default();
        let is_other = |at: &usize| {
            let node = &self.nodes[*at];
            matches!(node.kind, Kind::Directory(_)) && node.parent.is_none() && *at != main
        };
        let others = (0..self.nodes.len()).filter(is_other);
        let others = others.enumerate().map(|(at, top)| (top, format!("tree{}:", at + 1)));
        let mut tops: Vec<(usize, Vec<u8>)> =
            others.map(|(top, path)| (top, path.into_bytes())).collect();
        tops.reverse();
        tops.push((main, b"/".to_vec()));
        tops
    }
}

fn mount_name(number: usize) -> String {
    format!("mount{number}")
}

#[cfg(test)]
mod tests {
    use super::*;

    /// A tree with mounts on these names of its top, not looked into yet.
    fn tree(points: &[&[u8]]) -> Tree {
        let mut tree = Tree::new();
        tree.show(0, Identity(1, 1), Path::new(""));
        points.iter().for_each(|name| tree.mount(0, 0, name));
        tree
    }

    fn text(tree: &Tree) -> String {
        tree.manifest().build().unwrap();
        tree.manifest().to_string()
    }

    #[test]
    fn a_mount_shows_a_tree_or_what_is_known() {
        let mut tree = tree(&[b"bind", b"disk"]);
        let lab = tree.directory(0, b"lab", Some(Identity(1, 2)));
        tree.leaf(lab, b"run", Identity(1, 3), Kind::File);
        tree.leaf(0, b"again", Identity(1, 3), Kind::File);
        assert_eq!(tree.show(1, Identity(1, 2), Path::new("m1")), lab);
        tree.show(2, Identity(2, 1), Path::new("m2"));
        let lines = "dir   /\nfile  /again\ndir   /bind\ndir   /disk\ndir   /lab\n\
            hard  /lab/run /again\ndir   tree1:\n\
            mount /lab /bind as mount1\nmount tree1: /disk as mount2\n";
        assert_eq!(text(&tree), lines);
    }

    /// As if each was moved into the other while it was read.
    #[test]
    fn directories_in_a_ring_are_refused() {
        let mut tree = tree(&[]);
        let one = tree.directory(0, b"one", Some(Identity(1, 2)));
        let other = tree.directory(one, b"other", Some(Identity(1, 3)));
        tree.directory(other, b"one", Some(Identity(1, 2)));
        let error = tree.manifest().build().unwrap_err().to_string();
        assert!(error.starts_with("/one/other/one: rule 5 broken"), "{error}");
        tree.directory(other, b"top", Some(Identity(1, 1)));
        assert!(tree.manifest().build().is_err());
    }

    /// First a part of a disk is met, then the whole of it.
    #[test]
    fn a_top_may_turn_out_to_be_in_a_directory() {
        let mut tree = tree(&[b"part", b"whole"]);
        let part = tree.show(1, Identity(2, 5), Path::new("m1"));
        tree.leaf(part, b"run", Identity(2, 6), Kind::File);
        let whole = tree.show(2, Identity(2, 1), Path::new("m2"));
        assert_eq!(tree.directory(whole, b"sub", Some(Identity(2, 5))), part);
        assert_eq!(tree.real(b"tree1:/sub/run"), Path::new("m2/sub/run"));
        assert_eq!((tree.real(b"/part"), tree.real(b"/")), ("part".into(), "".into()));
        let lines = "dir   /\ndir   /part\ndir   /whole\n\
            dir   tree1:\ndir   tree1:/sub\nfile  tree1:/sub/run\n\
            mount tree1:/sub /part as mount1\nmount tree1: /whole as mount2\n";
        assert_eq!(text(&tree), lines);
    }

    /// A mount shows the directory in which the one is that is packed.
    #[test]
    fn the_main_top_too() {
        let mut tree = tree(&[b"up"]);
        let above = tree.show(1, Identity(1, 9), Path::new("m1"));
        assert_eq!(tree.directory(above, b"lab", Some(Identity(1, 1))), 0);
        let lines = "dir   /\ndir   /lab\ndir   /lab/up\nroot  /lab\nmount / /lab/up as mount1\n";
        assert_eq!(text(&tree), lines);
    }

    /// What is below a point is seen in another mount of its directory, and what it is there.
    #[test]
    fn what_a_mount_hides_another_shows() {
        let mut tree = tree(&[b"point", b"of_point", b"view"]);
        let hidden = tree.show(2, Identity(1, 7), Path::new("m2"));
        tree.leaf(hidden, b"run", Identity(1, 8), Kind::Link(b"a".to_vec()));
        assert_eq!(tree.show(3, Identity(1, 1), Path::new("m3")), 0);
        assert_eq!(tree.directory(0, b"point", Some(Identity(1, 7))), hidden);
        tree.show(1, Identity(3, 1), Path::new("m1"));
        let lines = "dir   /\ndir   /of_point\ndir   /point\nlink  /point/run a\ndir   /view\n\
            dir   tree1:\nmount tree1: /point as mount1\n\
            mount /point /of_point as mount2\nmount / /view as mount3\n";
        assert_eq!(text(&tree), lines);
    }

    /// The builder is asked before there are as many bytes as in an image, and not each time.
    #[test]
    fn too_much_is_told_soon() {
        let mut tree = tree(&[]);
        let full = (0..Parts::IMAGE_MAX).find_map(|at| {
            let name = format!("{at:08}");
            tree.leaf(0, name.as_bytes(), Identity(1, 2 + at as u64), Kind::File);
            tree.is_full().map(|error| (at, error.to_string()))
        });
        let (at, error) = full.unwrap();
        assert_eq!(at + 1, 4_096);
        assert!(error.starts_with("/00002339: rule 1 broken: "), "{error}");
    }
}
