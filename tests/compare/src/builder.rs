//! The builder of images, written from the words of request 2026-04 alone, to be compared
//! with the library.
//!
//! Rules 4 to 7 are those of `resolver`, taken on the caller's records over the caller's
//! text: that is where a name or body "reaching outside" shows, and nothing else in these rules
//! hangs on where in a text something stands. [`check_as_written`] says the same by the whole
//! check of the image, wherever there can be one.

use crate::resolver::{broken, check, counts_are_right, Broken, Table, EUCLEAN, LINK};
use data::fields::{put, Layout, ENTRY, MOUNT, NODE};

pub const ERANGE: u64 = 34;

/// Rule 1.
pub const LONGEST_IMAGE: u64 = 65_536;

/// What an image is built from.
#[derive(Clone, Debug, Default, PartialEq, Eq)]
pub struct Parts {
    pub nodes: Vec<u8>,
    pub mounts: Vec<u8>,
    pub entries: Vec<u8>,
    pub text: Vec<u8>,
}

impl Parts {
    /// The parts of an image, cut where this layout has them.
    pub fn cut(image: &[u8], layout: &Layout) -> Parts {
        let part = |from: usize, to: usize| {
            let end = to.min(image.len());
            image[from.min(end)..end].to_vec()
        };
        Parts {
            nodes: part(layout.node(0), layout.mounts_at),
            mounts: part(layout.mounts_at, layout.entries_at),
            entries: part(layout.entries_at, layout.text_at),
            text: part(layout.text_at, usize::MAX),
        }
    }

    /// The parts of an image by its own header.
    pub fn of(image: &[u8]) -> Parts {
        Parts::cut(image, &Layout::of(image))
    }

    /// "a record cut short isn't counted"
    pub fn table(&self) -> Table<'_> {
        Table::of(&self.nodes, &self.mounts, &self.entries, &self.text)
    }

    /// "but breaks rule 3"
    pub fn has_cut_record(&self) -> bool {
        self.behind_whole_records() != [0, 0, 0]
    }

    /// How many bytes of nodes, mounts and entries are those of a record cut short.
    pub fn behind_whole_records(&self) -> [usize; 3] {
        [self.nodes.len() % NODE, self.mounts.len() % MOUNT, self.entries.len() % ENTRY]
    }

    /// The whole records and the text as they are, behind a header.
    pub fn as_they_are(&self) -> Vec<u8> {
        let records = |part: &'_ Vec<u8>, width: usize| part.len() / width * width;
        whole([
            &self.nodes[..records(&self.nodes, NODE)],
            &self.mounts[..records(&self.mounts, MOUNT)],
            &self.entries[..records(&self.entries, ENTRY)],
            &self.text,
        ])
    }
}

/// errno (0: written), rule, record, bytes.
pub type Numbers = [u64; 4];

#[derive(Clone, Debug, PartialEq, Eq)]
pub struct Built {
    pub numbers: Numbers,
    /// What the buffer begins with afterwards; nothing after a refusal.
    pub image: Vec<u8>,
}

/// What is answered for a buffer of so many bytes.
pub fn build(parts: &Parts, room: u64) -> Built {
    let refused = |numbers| Built { numbers, image: Vec::new() };
    match image_of(parts) {
        Err(Broken { rule, record }) => refused([EUCLEAN, rule, record, 0]),
        Ok(image) => {
            let bytes = image.len() as u64;
            // "a buffer too small with ERANGE (34) after that"
            if room < bytes {
                return refused([ERANGE, 0, 0, bytes]);
            }
            Built { numbers: [0, 0, 0, bytes], image }
        }
    }
}

/// The one image of the tree, or the lowest rule that it breaks.
fn image_of(parts: &Parts) -> Result<Vec<u8>, Broken> {
    let tree = parts.table();
    if !(20..=LONGEST_IMAGE).contains(&written_length(&tree)) {
        return broken(1, 0);
    }
    // Rule 2 is about what the builder writes itself.
    let [nodes, mounts, entries] = counts(&tree);
    if !counts_are_right(nodes, mounts, entries) || parts.has_cut_record() {
        return broken(3, 0);
    }
    tree.rules_4_to_7()?;
    Ok(written(&tree))
}

fn counts(tree: &Table) -> [u64; 3] {
    [tree.nodes.len(), tree.mounts.len(), tree.entries.len()].map(|count| count as u64)
}

/// The length by what the records declare, whether that is there or not.
pub fn written_length(tree: &Table) -> u64 {
    let [nodes, mounts, entries] = counts(tree);
    let names: u64 = tree.entries.iter().map(|entry| entry.length).sum();
    let links = tree.nodes.iter().filter(|node| node.kind == LINK);
    let bodies: u64 = links.map(|link| link.count).sum();
    20 + 12 * nodes + 8 * mounts + 8 * entries + names + bodies
}

/// "entry names in entry order, then link bodies in node order, without gaps or sharing"
fn written(tree: &Table) -> Vec<u8> {
    let (mut nodes, mut mounts, mut entries, mut text) = (vec![], vec![], vec![], vec![]);
    for entry in &tree.entries {
        number(&mut entries, text.len() as u64, 4);
        number(&mut entries, entry.length, 2);
        number(&mut entries, entry.node, 2);
        text.extend(tree.name(entry).unwrap_or_default());
    }
    for node in &tree.nodes {
        number(&mut nodes, node.kind, 2);
        number(&mut nodes, node.parent, 2);
        if node.kind == LINK {
            number(&mut nodes, text.len() as u64, 4);
            text.extend(tree.text_part(node.first, node.count).unwrap_or_default());
        } else {
            number(&mut nodes, node.first, 4);
        }
        number(&mut nodes, node.count, 4);
    }
    for mount in &tree.mounts {
        for field in [mount.root, mount.parent, mount.point, mount.zero] {
            number(&mut mounts, field, 2);
        }
    }
    whole([&nodes, &mounts, &entries, &text])
}

fn number(bytes: &mut Vec<u8>, number: u64, width: usize) {
    put(bytes, number as usize, width);
}

/// The parts behind the header that their lengths make.
fn whole([nodes, mounts, entries, text]: [&[u8]; 4]) -> Vec<u8> {
    let mut image = vec![0x54, 0x4F, 0x43, 0x31];
    put(&mut image, nodes.len() / NODE, 2);
    put(&mut image, mounts.len() / MOUNT, 2);
    put(&mut image, entries.len() / ENTRY, 2);
    put(&mut image, 0, 2);
    put(&mut image, text.len(), 4);
    put(&mut image, 20 + nodes.len() + mounts.len() + entries.len() + text.len(), 4);
    [&image, nodes, mounts, entries, text].concat()
}

/// "The rules are taken on the image as it would be written": what the check says of that.
/// None where a record is cut short or a text lies outside, of which no image could tell.
/// Of a longer one the check sees no more than its length.
pub fn check_as_written(parts: &Parts) -> Option<[u64; 2]> {
    let tree = parts.table();
    let names_are_inside = tree.entries.iter().all(|entry| tree.name(entry).is_some());
    let mut links = tree.nodes.iter().filter(|node| node.kind == LINK);
    let bodies_are_inside = links.all(|link| tree.text_part(link.first, link.count).is_some());
    if parts.has_cut_record() || !names_are_inside || !bodies_are_inside {
        return None;
    }
    if written_length(&tree) > 2 * LONGEST_IMAGE {
        return Some([1, 0]);
    }
    Some(check(&written(&tree)))
}

#[cfg(test)]
mod tests;
