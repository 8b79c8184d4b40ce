//! The builder of table images.

use crate::fields::put;
use std::collections::HashMap;

/// A tree with its mounts, to be written as an image.
///
/// Texts given to [`Tree::text`] and to the functions `named..` are placed at
/// once, in the order of these calls; the others when the image is written, in the
/// order of the nodes. Numbers and texts may be wrong: nothing is set right but
/// that a directory's entries are sorted by name.
#[derive(Clone, Debug, Default, PartialEq)]
pub struct Tree {
    pub nodes: Vec<Node>,
    pub mounts: Vec<Mount>,
    /// What was placed so far.
    pub text: Vec<u8>,
    /// Text that no record uses, behind all other.
    pub after: Vec<u8>,
}

#[derive(Clone, Debug, PartialEq)]
pub enum Node {
    Directory {
        parent: usize,
        /// Sorted by name.
        entries: Vec<Entry>,
    },
    File,
    Link(Text),
    Magic {
        mount: usize,
        node: usize,
    },
}

#[derive(Clone, Debug, PartialEq)]
pub struct Entry {
    pub name: Text,
    pub node: usize,
}

#[derive(Clone, Debug, PartialEq)]
pub struct Mount {
    pub root: usize,
    pub parent: usize,
    pub point: usize,
}

/// A name or body. Parts of a placed one may overlap: that is how a table of
/// 64 KiB comes to hold thousands of long names or bodies.
#[derive(Clone, Debug, PartialEq)]
pub struct Text {
    pub bytes: Vec<u8>,
    /// Where in the tree's text, if it is placed.
    at: Option<usize>,
}

impl Text {
    pub fn len(&self) -> usize {
        self.bytes.len()
    }

    pub fn is_empty(&self) -> bool {
        self.bytes.is_empty()
    }

    /// `len` bytes of it from `at`.
    pub fn part(&self, at: usize, len: usize) -> Text {
        let bytes = self.bytes[at..][..len].to_vec();
        Text { bytes, at: self.at.map(|start| start + at) }
    }
}

impl<T: AsRef<[u8]>> From<T> for Text {
    fn from(bytes: T) -> Text {
        Text { bytes: bytes.as_ref().to_vec(), at: None }
    }
}

impl Tree {
    /// A tree with its top and mount 0.
    pub fn mounted() -> (Tree, usize) {
        let mut tree = Tree::default();
        let top = tree.top();
        tree.mount(top, 0, top);
        (tree, top)
    }

    /// Places a text.
    pub fn text(&mut self, bytes: &[u8]) -> Text {
        let at = Some(self.text.len());
        self.text.extend(bytes);
        Text { bytes: bytes.to_vec(), at }
    }

    fn add(&mut self, node: Node) -> usize {
        self.nodes.push(node);
        self.nodes.len() - 1
    }

    /// A directory that is the top of a tree.
    pub fn top(&mut self) -> usize {
        self.directory(self.nodes.len())
    }

    /// A directory, not yet named in its parent.
    pub fn directory(&mut self, parent: usize) -> usize {
        self.add(Node::Directory { parent, entries: Vec::new() })
    }

    pub fn file(&mut self) -> usize {
        self.add(Node::File)
    }

    pub fn link(&mut self, body: impl Into<Text>) -> usize {
        self.add(Node::Link(body.into()))
    }

    pub fn magic(&mut self, mount: usize, node: usize) -> usize {
        self.add(Node::Magic { mount, node })
    }

    pub fn mount(&mut self, root: usize, parent: usize, point: usize) -> usize {
        self.mounts.push(Mount { root, parent, point });
        self.mounts.len() - 1
    }

    /// Names a node in a directory; false if the name is taken there.
    pub fn name(&mut self, directory: usize, name: impl Into<Text>, node: usize) -> bool {
        let name = name.into();
        let taken = self.entries_of(directory).is_none_or(|entries| {
            entries.binary_search_by(|entry| entry.name.bytes.cmp(&name.bytes)).is_ok()
        });
        if !taken {
            self.name_again(directory, name, node);
        }
        !taken
    }

    /// As [`Tree::name`], also where the name is taken.
    pub fn name_again(&mut self, directory: usize, name: impl Into<Text>, node: usize) {
        let name = name.into();
        if let Some(Node::Directory { entries, .. }) = self.nodes.get_mut(directory) {
            let at = entries.partition_point(|entry| entry.name.bytes <= name.bytes);
            entries.insert(at, Entry { name, node });
        }
    }

    /// Names a node by a text that is placed for it.
    pub fn named(&mut self, directory: usize, name: &str, node: usize) -> usize {
        let name = self.text(name.as_bytes());
        self.name_again(directory, name, node);
        node
    }

    /// A directory with a name in its parent.
    pub fn named_directory(&mut self, parent: usize, name: &str) -> usize {
        let directory = self.directory(parent);
        self.named(parent, name, directory)
    }

    pub fn named_file(&mut self, directory: usize, name: &str) -> usize {
        let file = self.file();
        self.named(directory, name, file)
    }

    pub fn named_link(&mut self, directory: usize, name: &str, body: &str) -> usize {
        let body = self.text(body.as_bytes());
        let link = self.link(body);
        self.named(directory, name, link)
    }

    /// A chain of `len` directories below `from`. The first `named` of them are
    /// called `name` in the one before; the others have no name.
    pub fn chain(&mut self, from: usize, name: &Text, len: usize, named: usize) -> Vec<usize> {
        let mut chain: Vec<usize> = Vec::with_capacity(len);
        for i in 0..len {
            let parent = chain.last().copied().unwrap_or(from);
            let directory = self.directory(parent);
            if i < named {
                self.name_again(parent, name.clone(), directory);
            }
            chain.push(directory);
        }
        chain
    }

    /// The entries of a node, if it is a directory.
    pub fn entries_of(&self, node: usize) -> Option<&[Entry]> {
        match self.nodes.get(node) {
            Some(Node::Directory { entries, .. }) => Some(entries),
            _ => None,
        }
    }

    /// A directory's parent; any other node itself.
    pub fn parent_of(&self, node: usize) -> usize {
        match self.nodes.get(node) {
            Some(Node::Directory { parent, .. }) => *parent,
            _ => node,
        }
    }

    pub fn is_directory(&self, node: usize) -> bool {
        self.entries_of(node).is_some()
    }

    pub fn directories(&self) -> Vec<usize> {
        (0..self.nodes.len()).filter(|number| self.is_directory(*number)).collect()
    }

    pub fn files(&self) -> Vec<usize> {
        (0..self.nodes.len()).filter(|number| self.nodes[*number] == Node::File).collect()
    }

    /// Whether following parents from a node meets the root.
    pub fn is_under(&self, node: usize, root: usize) -> bool {
        let mut here = node;
        while here != root {
            let parent = self.parent_of(here);
            if parent >= here {
                return false;
            }
            here = parent;
        }
        true
    }

    /// The image, each text that is not placed yet in a place of its own.
    pub fn image(&self) -> Vec<u8> {
        self.write(Area { bytes: self.text.clone(), known: None })
    }

    /// The image, texts that are there already used again, also where they lie
    /// inside another one.
    pub fn shared_image(&self) -> Vec<u8> {
        self.write(Area { bytes: self.text.clone(), known: Some(HashMap::new()) })
    }

    fn write(&self, mut text: Area) -> Vec<u8> {
        let (mut nodes, mut entries) = (Vec::new(), Vec::new());
        for node in &self.nodes {
            let (kind, parent, first, count) = match node {
                Node::Directory { parent, entries: own } => {
                    let first = entries.len() / 8;
                    for Entry { name, node } in own {
                        put(&mut entries, text.place(name), 4);
                        put(&mut entries, name.len(), 2);
                        put(&mut entries, *node, 2);
                    }
                    (1, *parent, first, own.len())
                }
                Node::File => (2, 0, 0, 0),
                Node::Link(body) => (3, 0, text.place(body), body.len()),
                Node::Magic { mount, node } => (4, 0, *mount, *node),
            };
            for (number, width) in [(kind, 2), (parent, 2), (first, 4), (count, 4)] {
                put(&mut nodes, number, width);
            }
        }
        let mut mounts = Vec::new();
        for mount in &self.mounts {
            for number in [mount.root, mount.parent, mount.point, 0] {
                put(&mut mounts, number, 2);
            }
        }
        text.bytes.extend(&self.after);
        whole([&nodes, &mounts, &entries, &text.bytes])
    }
}

impl From<&Tree> for Vec<u8> {
    fn from(tree: &Tree) -> Vec<u8> {
        tree.image()
    }
}

/// The parts behind the header that they make.
fn whole(parts: [&Vec<u8>; 4]) -> Vec<u8> {
    let [nodes, mounts, entries, text] = parts.map(Vec::len);
    let mut image = b"TOC1".to_vec();
    for number in [nodes / 12, mounts / 8, entries / 8, 0] {
        put(&mut image, number, 2);
    }
    put(&mut image, text, 4);
    put(&mut image, 20 + nodes + mounts + entries + text, 4);
    for part in parts {
        image.extend(part);
    }
    image
}

/// The text as it is written.
struct Area {
    bytes: Vec<u8>,
    /// Where each text stands, if they are shared.
    known: Option<HashMap<Vec<u8>, usize>>,
}

impl Area {
    /// Where a text stands, appended if it does not yet.
    fn place(&mut self, text: &Text) -> usize {
        text.at.or_else(|| self.find(&text.bytes)).unwrap_or_else(|| {
            let at = self.bytes.len();
            if let Some(known) = &mut self.known {
                known.insert(text.bytes.clone(), at);
            }
            self.bytes.extend(&text.bytes);
            at
        })
    }

    fn find(&self, part: &[u8]) -> Option<usize> {
        if let Some(at) = self.known.as_ref()?.get(part) {
            return Some(*at);
        }
        // The search inside other texts is slow, so only in short ones.
        if part.is_empty() || self.bytes.len() > 512 {
            return None;
        }
        self.bytes.windows(part.len()).position(|window| window == part)
    }
}

#[cfg(test)]
mod tests {
    use super::*;

    #[test]
    fn the_smallest_image() {
        // RULES 2.9.
        let mut smallest = b"TOC1\x01\0\x01\0\0\0\0\0\0\0\0\0\x28\0\0\0\x01\0".to_vec();
        smallest.resize(40, 0);
        assert_eq!(Tree::mounted().0.image(), smallest);
        assert_eq!(Tree::default().image().len(), 20);
    }

    #[test]
    fn entries_are_sorted_and_a_taken_name_is_told() {
        let (mut tree, top) = Tree::mounted();
        let file = tree.file();
        assert!(tree.name(top, "b", file) && tree.name(top, "a", file));
        assert!(!tree.name(top, "a", file) && !tree.name(file, "c", file));
        tree.name_again(top, "a", top);
        let entries = tree.entries_of(top).unwrap().iter();
        let entries: Vec<(&[u8], usize)> = entries.map(|e| (&e.name.bytes[..], e.node)).collect();
        assert_eq!(entries, [(&b"a"[..], file), (b"a", top), (b"b", file)]);
    }

    #[test]
    fn texts_are_placed_at_once_or_late() {
        let (mut tree, top) = Tree::mounted();
        tree.link("late");
        tree.named_link(top, "name", "body");
        let all = tree.text(b"text");
        tree.link(all.part(1, 2));
        tree.after = b"!".to_vec();
        assert!(tree.image().ends_with(b"bodynametextlate!"));
        // The part that is placed begins at byte 9.
        assert_eq!(tree.image()[20 + 12 * 3 + 4], 9);
    }

    #[test]
    fn texts_are_shared() {
        let (mut tree, top) = Tree::mounted();
        for body in ["abc", "bc", "abc", "x"] {
            tree.link(body);
        }
        assert!(tree.shared_image().ends_with(b"\0\0abcx"));
        assert!(tree.image().ends_with(b"abcbcabcx"));
        assert!(tree.is_under(top, 0) && !tree.is_under(1, top));
    }
}
