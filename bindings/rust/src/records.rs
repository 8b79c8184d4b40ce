//! The records of an accepted table, read.
//!
//! In such a table all that is asked for here is there: the four parts in full
//! (rule 3), each directory's entries (4), bodies and names inside the text (4 and
//! 5). So no reader hands out an `Option`. Should a byte be missing all the same,
//! it is the part around it that reads as empty; nothing panics.

mod cause;
mod kind;

pub use cause::{Cause, Record};
#[cfg(feature = "std")]
pub(crate) use cause::{BYTES, ENTRIES, MOUNTS, NODES};
pub use kind::Kind;

use crate::{Parts, Place};
use core::fmt;
use core::iter::{Enumerate, FusedIterator};
use core::slice::Iter;

pub(crate) const NODE: usize = 12;
const MOUNT: usize = 8;
pub(crate) const ENTRY: usize = 8;

/// What a node is.
///
/// ```
/// use ventolaire::{bench_tree, Node, Table};
///
/// let table = Table::new(bench_tree::IMAGE)?;
/// let bodies = table.nodes().filter_map(|(number, node)| match node {
///     Node::Link { body, .. } => Some((number, body)),
///     _ => None,
/// });
/// assert_eq!(bodies.last(), Some((11, &b"tare/"[..])));
/// # Ok::<(), ventolaire::Broken>(())
/// ```
#[derive(Clone, Debug)]
#[non_exhaustive]
pub enum Node<'a> {
    /// A directory.
    #[non_exhaustive]
    Directory {
        /// The directory above it, by number; itself at the top of a tree.
        parent: u64,
        /// What it names, in ascending order of the names' bytes.
        entries: Entries<'a>,
    },
    /// A file.
    #[non_exhaustive]
    File {},
    /// A symbolic link.
    #[non_exhaustive]
    Link {
        /// The path that it leads to, 1 to 4,095 bytes without a zero.
        body: &'a [u8],
    },
    /// A magic link.
    #[non_exhaustive]
    MagicLink {
        /// The place that it leads to.
        target: Place,
    },
}

/// A name in a directory.
///
/// ```
/// use ventolaire::{bench_tree, Table};
///
/// let table = Table::new(bench_tree::IMAGE)?;
/// let first = table.entries().next().unwrap();
/// assert_eq!((first.name, first.node), (&b"lab"[..], 1));
/// # Ok::<(), ventolaire::Broken>(())
/// ```
#[derive(Clone, Copy, Debug, PartialEq, Eq, Hash)]
#[non_exhaustive]
pub struct Entry<'a> {
    /// 1 to 255 bytes without a zero or a slash.
    pub name: &'a [u8],
    /// The number of the node that is named.
    pub node: u64,
}

/// A mount.
///
/// ```
/// use ventolaire::{bench_tree, Table};
///
/// let table = Table::new(bench_tree::IMAGE)?;
/// let pool = table.mount(1).unwrap();
/// assert_eq!((pool.root, pool.parent, pool.point), (8, 0, 7));
/// # Ok::<(), ventolaire::Broken>(())
/// ```
#[derive(Clone, Copy, Debug, PartialEq, Eq, Hash)]
#[non_exhaustive]
pub struct Mount {
    /// The directory that it shows, by number.
    pub root: u64,
    /// The mount that it hangs in, by number; of mount 0 itself.
    pub parent: u64,
    /// The directory that it hangs on, by number; of mount 0 its own root.
    pub point: u64,
}

impl Mount {
    /// The place that it hangs on: its point, as seen in its parent. All mounts
    /// but mount 0 cover this place.
    ///
    /// ```
    /// use ventolaire::{bench_tree, Table};
    ///
    /// let table = Table::new(bench_tree::IMAGE)?;
    /// assert_eq!(table.mount(1).unwrap().place().to_string(), "(0,7)");
    /// # Ok::<(), ventolaire::Broken>(())
    /// ```
    pub const fn place(&self) -> Place {
        Place { mount: self.parent, node: self.point }
    }
}

/// The records of a table and their text.
#[derive(Clone, Copy, Default)]
pub(crate) struct Records<'a> {
    nodes: &'a [[u8; NODE]],
    mounts: &'a [[u8; MOUNT]],
    entries: &'a [[u8; ENTRY]],
    text: &'a [u8],
}

impl<'a> Records<'a> {
    /// The parts of an image, cut by the counts in its header.
    pub(crate) fn of(image: &'a [u8]) -> Self {
        let Some((header, rest)) = image.split_first_chunk::<20>() else {
            return Records::default();
        };
        let [_, _, _, _, n0, n1, m0, m1, e0, e1, ..] = *header;
        let (nodes, rest) = records(rest, [n0, n1]);
        let (mounts, rest) = records(rest, [m0, m1]);
        let (entries, text) = records(rest, [e0, e1]);
        Records { nodes, mounts, entries, text }
    }

    /// The whole records of these parts.
    pub(crate) fn of_parts(parts: &Parts<'a>) -> Self {
        let (nodes, mounts) = (parts.nodes.as_chunks().0, parts.mounts.as_chunks().0);
        Records { nodes, mounts, entries: parts.entries.as_chunks().0, text: parts.text }
    }

    /// The bytes of the records, and the text.
    pub(crate) fn parts(self) -> Parts<'a> {
        let Records { nodes, mounts, entries, text } = self;
        let (nodes, mounts) = (nodes.as_flattened(), mounts.as_flattened());
        Parts { nodes, mounts, entries: entries.as_flattened(), text }
    }

    pub(crate) fn nodes(self) -> Nodes<'a> {
        Nodes { parts: self, records: self.nodes.iter().enumerate() }
    }

    pub(crate) fn mounts(self) -> Mounts<'a> {
        Mounts { records: self.mounts.iter().enumerate() }
    }

    pub(crate) fn entries(self) -> Entries<'a> {
        Entries { text: self.text, records: self.entries.iter() }
    }

    fn node(self, record: &[u8; NODE]) -> Node<'a> {
        let [kind, parent, first, count] = node_fields(record);
        match kind {
            1 => {
                let records = part(self.entries, first, count).iter();
                let entries = Entries { text: self.text, records };
                Node::Directory { parent, entries }
            }
            2 => Node::File {},
            3 => Node::Link { body: part(self.text, first, count) },
            // Kind 4: rule 4 leaves no other.
            _ => Node::MagicLink { target: Place { mount: first, node: count } },
        }
    }
}

/// As many records as the count says, and what follows them.
fn records<const N: usize>(bytes: &[u8], count: [u8; 2]) -> (&[[u8; N]], &[u8]) {
    let len = N * usize::from(u16::from_le_bytes(count));
    let (records, rest) = bytes.split_at_checked(len).unwrap_or_default();
    (records.as_chunks().0, rest)
}

/// `count` records or bytes from `first` on.
fn part<T>(of: &[T], first: u64, count: u64) -> &[T] {
    let from = of.get(first as usize..);
    from.and_then(|from| from.get(..count as usize)).unwrap_or_default()
}

/// Kind, parent, first and count.
fn node_fields(record: &[u8; NODE]) -> [u64; 4] {
    let [k0, k1, p0, p1, f0, f1, f2, f3, c0, c1, c2, c3] = *record;
    [short([k0, k1]), short([p0, p1]), long([f0, f1, f2, f3]), long([c0, c1, c2, c3])]
}

/// Root, parent, point and zero.
fn mount_fields(record: &[u8; MOUNT]) -> [u64; 4] {
    let [r0, r1, p0, p1, n0, n1, z0, z1] = *record;
    [[r0, r1], [p0, p1], [n0, n1], [z0, z1]].map(short)
}

/// Offset and length of the name, and the node.
fn entry_fields(record: &[u8; ENTRY]) -> [u64; 3] {
    let [o0, o1, o2, o3, l0, l1, n0, n1] = *record;
    [long([o0, o1, o2, o3]), short([l0, l1]), short([n0, n1])]
}

fn short(bytes: [u8; 2]) -> u64 {
    u16::from_le_bytes(bytes).into()
}

fn long(bytes: [u8; 4]) -> u64 {
    u32::from_le_bytes(bytes).into()
}

/// The nodes of a table with their numbers, by [`Table::nodes`](crate::Table::nodes).
///
/// ```
/// use ventolaire::{bench_tree, Node, Table};
///
/// let table = Table::new(bench_tree::IMAGE)?;
/// let is_file = |node: &Node| matches!(node, Node::File { .. });
/// let files = table.nodes().rev().filter(|(_, node)| is_file(node)).map(|(number, _)| number);
/// assert_eq!(files.collect::<Vec<_>>(), [9, 3]);
/// # Ok::<(), ventolaire::Broken>(())
/// ```
#[derive(Clone)]
#[must_use = "iterators do nothing unless they are asked"]
pub struct Nodes<'a> {
    parts: Records<'a>,
    records: Enumerate<Iter<'a, [u8; NODE]>>,
}

/// The entries of a table or of one directory, by
/// [`Table::entries`](crate::Table::entries) and in [`Node::Directory`].
///
/// ```
/// use ventolaire::{bench_tree, Node, Table};
///
/// let table = Table::new(bench_tree::IMAGE)?;
/// assert_eq!(table.entries().len(), 10);
///
/// let Some(Node::Directory { entries, .. }) = table.node(1) else { panic!("lab") };
/// let names: Vec<&[u8]> = entries.map(|entry| entry.name).collect();
/// assert_eq!(names, [&b"cal"[..], b"pool"]);
/// # Ok::<(), ventolaire::Broken>(())
/// ```
#[derive(Clone)]
#[must_use = "iterators do nothing unless they are asked"]
pub struct Entries<'a> {
    text: &'a [u8],
    records: Iter<'a, [u8; ENTRY]>,
}

/// The mounts of a table with their numbers, by
/// [`Table::mounts`](crate::Table::mounts).
///
/// ```
/// use ventolaire::{bench_tree, Table};
///
/// let table = Table::new(bench_tree::IMAGE)?;
/// let roots = table.mounts().map(|(number, mount)| (number, mount.root));
/// assert_eq!(roots.collect::<Vec<_>>(), [(0, 0), (1, 8)]);
/// # Ok::<(), ventolaire::Broken>(())
/// ```
#[derive(Clone)]
#[must_use = "iterators do nothing unless they are asked"]
pub struct Mounts<'a> {
    records: Enumerate<Iter<'a, [u8; MOUNT]>>,
}

impl<'a> Nodes<'a> {
    fn read(&self, (number, record): (usize, &[u8; NODE])) -> (u64, Node<'a>) {
        (number as u64, self.parts.node(record))
    }
}

impl<'a> Entries<'a> {
    fn read(&self, record: &[u8; ENTRY]) -> Entry<'a> {
        let [offset, length, node] = entry_fields(record);
        Entry { name: part(self.text, offset, length), node }
    }
}

impl Mounts<'_> {
    fn read(&self, (number, record): (usize, &[u8; MOUNT])) -> (u64, Mount) {
        let [root, parent, point, _] = mount_fields(record);
        (number as u64, Mount { root, parent, point })
    }
}

/// Makes a type an iterator by the one over its records and its `read`.
macro_rules! iterator {
    ($Records:ident, $Item:ty) => {
        impl<'a> Iterator for $Records<'a> {
            type Item = $Item;

            fn next(&mut self) -> Option<$Item> {
                let record = self.records.next()?;
                Some(self.read(record))
            }

            fn nth(&mut self, n: usize) -> Option<$Item> {
                let record = self.records.nth(n)?;
                Some(self.read(record))
            }

            fn size_hint(&self) -> (usize, Option<usize>) {
                self.records.size_hint()
            }
        }

        impl<'a> DoubleEndedIterator for $Records<'a> {
            fn next_back(&mut self) -> Option<$Item> {
                let record = self.records.next_back()?;
                Some(self.read(record))
            }
        }

        impl ExactSizeIterator for $Records<'_> {}

        impl FusedIterator for $Records<'_> {}

        impl fmt::Debug for $Records<'_> {
            fn fmt(&self, f: &mut fmt::Formatter) -> fmt::Result {
                f.debug_list().entries(self.clone()).finish()
            }
        }
    };
}

iterator!(Nodes, (u64, Node<'a>));
iterator!(Entries, Entry<'a>);
iterator!(Mounts, (u64, Mount));
