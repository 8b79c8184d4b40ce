//! What a manifest describes, put together: who names what, and what hangs where.

use super::object::{is_name, told, Object};
use super::{Item, Kind, Line, Manifest, ManifestError, Position, Problem};
use std::collections::HashMap;

/// Nodes and mounts, in the order in which they are described. What speaks of one has its place in
/// these lists.
pub(super) struct Layout<'a> {
    /// The main tree's top first.
    pub nodes: Vec<Node<'a>>,
    /// Mount 0 first.
    pub mounts: Vec<Mount<'a>>,
}

pub(super) struct Node<'a> {
    pub at: At<'a>,
    pub kind: &'a Kind,
    /// Of a directory, but for the top of a tree.
    pub parent: Option<usize>,
    /// What it names, in ascending order of the names.
    pub entries: Vec<Entry<'a>>,
    /// The directories without a name in it, in their order.
    pub nameless: Vec<usize>,
    /// Of a magic link, the mount and the node that it leads to.
    pub target: (usize, usize),
}

pub(super) struct Entry<'a> {
    pub at: At<'a>,
    pub name: &'a [u8],
    pub node: usize,
}

pub(super) struct Mount<'a> {
    /// By its point.
    pub at: At<'a>,
    pub root: usize,
    pub parent: usize,
    pub point: usize,
}

/// Of which object something is said, and where.
#[derive(Clone, Copy)]
pub(super) struct At<'a> {
    pub path: &'a [u8],
    pub position: Option<Position>,
}

impl At<'_> {
    pub fn error(self, problem: Problem) -> ManifestError {
        ManifestError { position: self.position, path: told(self.path), problem }
    }
}

impl<'a> Node<'a> {
    pub fn is_directory(&self) -> bool {
        matches!(self.kind, Kind::Directory(_))
    }

    /// The order of what has no name: as their names in the manifest, shorter ones first.
    pub fn rank(&self) -> (usize, &'a [u8]) {
        (self.at.path.len(), self.at.path)
    }
}

impl Line {
    /// The object that is described: of a mount its point.
    fn at(&self) -> At<'_> {
        let object = match &self.item {
            Item::Node { object, .. } | Item::Hard { object, .. } | Item::Root { object } => object,
            Item::Mount { point, .. } => point,
        };
        At { path: object.bytes(), position: self.position }
    }

    /// Whether all that it speaks of has a path.
    fn check(&self) -> Result<(), ManifestError> {
        match self.objects().into_iter().flatten().find(|object| !object.is_path()) {
            None => Ok(()),
            Some(object) => {
                // As it was given, also if that is nothing.
                let (position, path) = (self.position, object.bytes().to_vec());
                Err(ManifestError { position, path, problem: Problem::NoPath })
            }
        }
    }

    fn objects(&self) -> [Option<&Object>; 2] {
        match &self.item {
            Item::Node { object, kind: Kind::Directory(parent) } => [Some(object), parent.as_ref()],
            Item::Node { object, kind: Kind::Magic { target, .. } } => [Some(object), Some(target)],
            Item::Node { object, .. } | Item::Root { object } => [Some(object), None],
            Item::Hard { object, other } => [Some(object), Some(other)],
            Item::Mount { root, point, .. } => [Some(root), Some(point)],
        }
    }
}

static DIRECTORY: Kind = Kind::Directory(None);

impl<'a> Layout<'a> {
    pub fn of(manifest: &'a Manifest) -> Result<Self, ManifestError> {
        let lines = &manifest.lines;
        lines.iter().try_for_each(Line::check)?;
        let known = Known::of(lines)?;
        let mut layout = Layout { nodes: nodes(lines), mounts: Vec::new() };
        lines.iter().try_for_each(|line| layout.put(line, &known))?;
        layout.sort();
        layout.mount_root(lines, &known)?;
        lines.iter().try_for_each(|line| layout.hang(line, &known))?;
        Ok(layout)
    }

    /// Puts what a line describes into its parent.
    fn put(&mut self, line: &'a Line, known: &Known<'a>) -> Result<(), ManifestError> {
        let (object, node) = match &line.item {
            Item::Node { object, .. } => (object, known.node(line, object.bytes())?),
            Item::Hard { object, other } => (object, known.first(line, other.bytes())?),
            _ => return Ok(()),
        };
        let parent = match &line.item {
            Item::Node { kind: Kind::Directory(parent), .. } => parent.as_ref(),
            _ => None,
        };
        match (object.named(), parent) {
            (Some(_), Some(_)) => return Err(line.at().error(Problem::Parents)),
            (Some((directory, name)), None) => {
                let parent = self.directory(line, directory, known)?;
                self.nodes[parent].entries.push(Entry { at: line.at(), name, node });
                if matches!(line.item, Item::Node { .. }) && self.nodes[node].is_directory() {
                    self.nodes[node].parent = Some(parent);
                }
            }
            (None, Some(parent)) => {
                let parent = self.directory(line, parent.bytes(), known)?;
                // Its own parent is the top of a tree.
                if parent != node {
                    self.nodes[node].parent = Some(parent);
                    self.nodes[parent].nameless.push(node);
                }
            }
            (None, None) => {}
        }
        Ok(())
    }

    /// The directory of a path.
    fn directory(&self, line: &Line, path: &[u8], known: &Known) -> Result<usize, ManifestError> {
        let problem = match known.by_path.get(path) {
            Some(Said::Node(node)) if self.nodes[*node].is_directory() => return Ok(*node),
            Some(Said::Node(_)) => Problem::NotDirectory(told(path)),
            Some(Said::Hard(_)) => Problem::SecondName(told(path)),
            None => Problem::NoDirectory(told(path)),
        };
        Err(line.at().error(problem))
    }

    fn sort(&mut self) {
        let ranks: Vec<(usize, &'a [u8])> = self.nodes.iter().map(Node::rank).collect();
        for node in &mut self.nodes {
            node.entries.sort_by_key(|entry| entry.name);
            node.nameless.sort_by_key(|at| ranks[*at]);
        }
    }

    /// Makes mount 0, which shows the main tree if no line says otherwise.
    fn mount_root(&mut self, lines: &'a [Line], known: &Known) -> Result<(), ManifestError> {
        let line = lines.iter().find(|line| matches!(line.item, Item::Root { .. }));
        let (at, root) = match line {
            Some(line) => (line.at(), known.node(line, line.at().path)?),
            None => (self.nodes[0].at, 0),
        };
        self.mounts.push(Mount { at, root, parent: 0, point: root });
        Ok(())
    }

    /// Makes a line's mount, or leads its magic link to the target.
    fn hang(&mut self, line: &'a Line, known: &Known) -> Result<(), ManifestError> {
        match &line.item {
            Item::Mount { root, point, parent, .. } => self.mounts.push(Mount {
                at: line.at(),
                root: known.node(line, root.bytes())?,
                parent: known.mount(line, parent)?,
                point: known.node(line, point.bytes())?,
            }),
            Item::Node { object, kind: Kind::Magic { target, mount } } => {
                let target = (known.mount(line, mount)?, known.node(line, target.bytes())?);
                self.nodes[known.node(line, object.bytes())?].target = target;
            }
            _ => {}
        }
        Ok(())
    }
}

/// The nodes that lines describe, with nothing in them yet.
fn nodes(lines: &[Line]) -> Vec<Node<'_>> {
    let node = |at, kind| Node {
        at,
        kind,
        parent: None,
        entries: Vec::new(),
        nameless: Vec::new(),
        target: (0, 0),
    };
    let mut nodes = vec![node(At { path: b"", position: None }, &DIRECTORY)];
    for line in lines {
        match &line.item {
            Item::Node { kind, .. } if line.at().path.is_empty() => {
                nodes[0] = node(line.at(), kind)
            }
            Item::Node { kind, .. } => nodes.push(node(line.at(), kind)),
            _ => {}
        }
    }
    nodes
}

/// What the lines describe, by path and by name.
struct Known<'a> {
    by_path: HashMap<&'a [u8], Said<'a>>,
    mounts: HashMap<&'a str, usize>,
}

enum Said<'a> {
    Node(usize),
    /// A second name of this.
    Hard(&'a Object),
}

impl<'a> Known<'a> {
    fn of(lines: &'a [Line]) -> Result<Self, ManifestError> {
        let mut known = Known { by_path: HashMap::new(), mounts: HashMap::new() };
        known.by_path.insert(b"", Said::Node(0));
        // Where each object was described, and the root.
        let (mut described, mut root) = (HashMap::new(), None);
        let (mut nodes, mut mounts) = (1, 1);
        for line in lines {
            let at = line.at();
            match &line.item {
                Item::Node { .. } if at.path.is_empty() => {}
                Item::Node { .. } => {
                    known.by_path.insert(at.path, Said::Node(nodes));
                    nodes += 1;
                }
                Item::Hard { object, .. } if object.named().is_none() => {
                    return Err(at.error(Problem::Nameless));
                }
                Item::Hard { other, .. } => {
                    known.by_path.insert(at.path, Said::Hard(other));
                }
                Item::Root { .. } => match root.replace(line.position) {
                    Some(first) => return Err(at.error(Problem::RootTwice(first))),
                    None => continue,
                },
                Item::Mount { name, .. } => {
                    known.name_mount(at, name.as_deref(), mounts)?;
                    mounts += 1;
                    continue;
                }
            }
            if let Some(first) = described.insert(at.path, line.position) {
                return Err(at.error(Problem::Twice(first)));
            }
        }
        Ok(known)
    }

    fn name_mount(
        &mut self,
        at: At,
        name: Option<&'a str>,
        number: usize,
    ) -> Result<(), ManifestError> {
        let problem = match name {
            None => return Ok(()),
            Some(name) if !is_name(name.as_bytes()) => Problem::NoName(name.into()),
            Some(name) => match self.mounts.insert(name, number) {
                None => return Ok(()),
                Some(_) => Problem::MountTwice(name.into()),
            },
        };
        Err(at.error(problem))
    }

    /// The node of a path, which may be a second name of it.
    fn node(&self, line: &Line, path: &[u8]) -> Result<usize, ManifestError> {
        match self.by_path.get(path) {
            Some(Said::Hard(other)) => self.first(line, other.bytes()),
            _ => self.first(line, path),
        }
    }

    /// The node of a path that is no second name.
    fn first(&self, line: &Line, path: &[u8]) -> Result<usize, ManifestError> {
        let problem = match self.by_path.get(path) {
            Some(Said::Node(node)) => return Ok(*node),
            Some(Said::Hard(_)) => Problem::SecondName(told(path)),
            None => Problem::NoObject(told(path)),
        };
        Err(line.at().error(problem))
    }

    fn mount(&self, line: &Line, name: &Option<String>) -> Result<usize, ManifestError> {
        let Some(name) = name else { return Ok(0) };
        let mount = self.mounts.get(name.as_str()).copied();
        mount.ok_or_else(|| line.at().error(Problem::NoMount(name.clone())))
    }
}
