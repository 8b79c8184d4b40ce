//! The manifest of a table.

use super::object::Object;
use super::{Item, Kind, Manifest};
use crate::{BuildError, Node, Place, Table};

/// The manifest of all that a table holds, directories without a name too. Of an image that a
/// manifest was built to, it builds the same image; of another, one with the same tree but for
/// the numbers of nodes and mounts.
///
/// Refused is a table whose names and bodies share so much text that they would be too long for
/// an image one by one: no manifest builds its tree, and its paths can be a thousand times longer
/// than itself.
///
/// ```
/// use ventolaire::{bench_tree, Manifest, Table};
///
/// let manifest = Manifest::try_from(&Table::new(bench_tree::IMAGE)?)?;
/// assert!(manifest.to_string().contains("\nmount tree1: /lab/pool\n"));
/// let image = manifest.build()?;
/// assert_eq!(Manifest::try_from(&Table::new(&image)?)?.build()?, image);
/// # Ok::<(), Box<dyn std::error::Error>>(())
/// ```
impl TryFrom<&Table<'_>> for Manifest {
    type Error = BuildError;

    fn try_from(table: &Table) -> Result<Self, BuildError> {
        // Without room nothing is written, but a broken rule is told first.
        match table.parts().build_into(&mut []) {
            Ok(_) | Err(BuildError::Short { .. }) => {}
            Err(error) => return Err(error),
        }
        let mut described = Described::of(table);
        described.trees();
        described.rest();
        described.lead();
        described.hang();
        Ok(described.manifest)
    }
}

struct Described<'a> {
    table: &'a Table<'a>,
    manifest: Manifest,
    /// Of each node that is described, its path.
    objects: Vec<Option<Object>>,
    /// Of each node, the directories without a name in it, with their paths.
    nameless: Vec<Vec<(u64, Object)>>,
    /// The lines of magic links, and where these lead to.
    magic: Vec<(usize, Place)>,
}

impl<'a> Described<'a> {
    fn of(table: &'a Table<'a>) -> Self {
        let count = table.nodes().len();
        let mut nameless = vec![Vec::new(); count];
        for ((number, parent), name) in table.nameless().into_iter().zip(1..) {
            nameless[parent as usize].push((number, top("dir", name)));
        }
        let (manifest, magic) = (Manifest::new(), Vec::new());
        Described { table, manifest, objects: vec![None; count], nameless, magic }
    }

    /// The trees from their tops, the one of mount 0 first.
    fn trees(&mut self) {
        let table = self.table;
        let main = self.top_of(table.root().node);
        self.tree(main, Object::of(b"/"));
        let tops = table.nodes().filter_map(|(number, node)| match node {
            Node::Directory { parent, .. } if parent == number && number != main => Some(number),
            _ => None,
        });
        tops.zip(1..).for_each(|(number, name)| self.tree(number, top("tree", name)));
    }

    /// The top of the tree that a directory is in.
    fn top_of(&self, mut directory: u64) -> u64 {
        while let Some(Node::Directory { parent, .. }) = self.table.node(directory) {
            if parent == directory {
                break;
            }
            directory = parent;
        }
        directory
    }

    /// All that has no name and is no directory.
    fn rest(&mut self) {
        let rest: Vec<u64> = (0..)
            .zip(&self.objects)
            .filter(|(_, object)| object.is_none())
            .map(|(number, _)| number)
            .collect();
        for (number, name) in rest.into_iter().zip(1..) {
            self.tree(number, top("lost", name));
        }
    }

    /// A node, and what is below it.
    fn tree(&mut self, number: u64, object: Object) {
        let mut waiting = vec![(number, object)];
        while let Some((number, object)) = waiting.pop() {
            let at = number as usize;
            if let Some(other) = self.objects[at].clone() {
                self.manifest.add(None, Item::Hard { object, other });
                continue;
            }
            let Some(node) = self.table.node(number) else { continue };
            self.objects[at] = Some(object.clone());
            if let Node::Directory { entries, .. } = &node {
                waiting.extend(self.nameless[at].iter().rev().cloned());
                let below = entries.clone().rev();
                waiting.extend(below.map(|entry| (entry.node, object.clone().below(entry.name))));
            }
            self.describe(object, number, node);
        }
    }

    fn describe(&mut self, object: Object, number: u64, node: Node) {
        let kind = match node {
            // The main tree has its top without being told.
            Node::Directory { .. } if object.bytes().is_empty() => return,
            Node::Directory { parent, .. } if object.named().is_none() && parent != number => {
                Kind::Directory(self.objects[parent as usize].clone())
            }
            Node::Directory { .. } => Kind::Directory(None),
            Node::Link { body, .. } => Kind::Link(body.to_vec()),
            Node::MagicLink { target, .. } => {
                self.magic.push((self.manifest.lines.len(), target));
                // For now.
                Kind::Magic { target: object.clone(), mount: None }
            }
            _ => Kind::File,
        };
        self.manifest.add(None, Item::Node { object, kind });
    }

    /// Leads magic links to their targets, which have their paths by now.
    fn lead(&mut self) {
        for (line, place) in std::mem::take(&mut self.magic) {
            let Some(to) = self.objects[place.node as usize].clone() else { continue };
            if let Item::Node { kind: Kind::Magic { target, mount }, .. } =
                &mut self.manifest.lines[line].item
            {
                (*target, *mount) = (to, name(place.mount));
            }
        }
    }

    /// The mounts. Those in which something else is seen have a name.
    fn hang(&mut self) {
        let table = self.table;
        let mut seen = vec![false; table.mounts().len()];
        table.mounts().for_each(|(_, mount)| seen[mount.parent as usize] = true);
        let targets = table.nodes().filter_map(|(_, node)| match node {
            Node::MagicLink { target, .. } => Some(target),
            _ => None,
        });
        targets.for_each(|target| seen[target.mount as usize] = true);
        for (number, mount) in table.mounts() {
            let [root, point] = [mount.root, mount.point].map(|node| &self.objects[node as usize]);
            let (Some(object), Some(point)) = (root.clone(), point.clone()) else { continue };
            let item = match number {
                0 if object.bytes().is_empty() => continue,
                0 => Item::Root { object },
                _ => {
                    let own = name(number).filter(|_| seen[number as usize]);
                    Item::Mount { root: object, point, parent: name(mount.parent), name: own }
                }
            };
            self.manifest.add(None, item);
        }
    }
}

/// The path of what has no name.
fn top(word: &str, number: u64) -> Object {
    Object::of(format!("{word}{number}:").as_bytes())
}

/// What a mount is named. Mount 0 needs no name.
fn name(mount: u64) -> Option<String> {
    (mount > 0).then(|| format!("mount{mount}"))
}
