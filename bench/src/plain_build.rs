//! The builder of images, written straight over the caller's bytes: the plain Rust that the
//! proved one is measured against.
//!
//! The plain table check takes the caller's parts as it takes those of an image, so nothing is
//! copied to be checked: the image is written once, into the buffer, after all that may refuse it.
//! By a `Vec` that is appended to, and copied in the end, it takes a fifth to a third more.

use crate::plain::{
    are_counts_allowed, Broken, Entry, Errno, Node, Table, HEADER_LEN, IMAGE_LEN, SIGNATURE,
    SYMLINK,
};

/// What an image is built from, as the caller has it.
#[derive(Clone, Copy)]
pub struct Parts<'a> {
    pub nodes: &'a [u8],
    pub mounts: &'a [u8],
    pub entries: &'a [u8],
    pub text: &'a [u8],
}

#[derive(Clone, Copy, Debug, PartialEq, Eq)]
pub enum Refusal {
    Broken(Broken),
    /// The buffer is too short for an image of so many bytes.
    Short(usize),
}

impl Refusal {
    pub fn errno(self) -> Errno {
        match self {
            Refusal::Broken(_) => Errno::EUCLEAN,
            Refusal::Short(_) => Errno::ERANGE,
        }
    }
}

/// Writes the image of the tree that the parts stand for to the start of the buffer; its length.
pub fn build(parts: Parts, buffer: &mut [u8]) -> Result<usize, Refusal> {
    let (table, len) = check(parts).map_err(Refusal::Broken)?;
    let image = buffer.get_mut(..len).ok_or(Refusal::Short(len))?;
    write(&table, image);
    Ok(len)
}

/// The records of parts that keep all rules, and the length of their image.
fn check(parts: Parts) -> Result<(Table, usize), Broken> {
    let (nodes, cut_node) = parts.nodes.as_chunks();
    let (mounts, cut_mount) = parts.mounts.as_chunks();
    let (entries, cut_entry) = parts.entries.as_chunks();
    let table = Table { nodes, mounts, entries, text: parts.text };
    let len = written_len(&table).ok_or(Broken::new(1, 0))?;
    let is_whole = cut_node.is_empty() && cut_mount.is_empty() && cut_entry.is_empty();
    if !is_whole || !are_counts_allowed(nodes.len(), mounts.len(), entries.len()) {
        return Err(Broken::new(3, 0));
    }
    table.check_records()?;
    Ok((table, len))
}

/// The length as it would be written, if an image may have it.
fn written_len(table: &Table) -> Option<usize> {
    let records = HEADER_LEN + records_len(table);
    // So that no sum of lengths can wrap.
    if !IMAGE_LEN.contains(&records) {
        return None;
    }
    let names = table.entries.iter().map(|record| u64::from(Entry::read(record).name_len));
    let links = table.nodes.iter().map(Node::read).filter(|node| node.kind == SYMLINK);
    let bodies = links.map(|link| u64::from(link.count));
    let len = records as u64 + names.sum::<u64>() + bodies.sum::<u64>();
    usize::try_from(len).ok().filter(|len| IMAGE_LEN.contains(len))
}

fn records_len(table: &Table) -> usize {
    let Table { nodes, mounts, entries, .. } = table;
    nodes.as_flattened().len() + mounts.as_flattened().len() + entries.as_flattened().len()
}

/// Writes the image over all of `out`, which is as long.
fn write(table: &Table, out: &mut [u8]) {
    let header = header(table, out.len());
    let (start, rest) = out.split_at_mut(HEADER_LEN);
    start.copy_from_slice(&header);
    let (nodes, rest) = rest.split_at_mut(table.nodes.as_flattened().len());
    nodes.copy_from_slice(table.nodes.as_flattened());
    let (mounts, rest) = rest.split_at_mut(table.mounts.as_flattened().len());
    mounts.copy_from_slice(table.mounts.as_flattened());
    let (entries, text) = rest.split_at_mut(table.entries.as_flattened().len());
    entries.copy_from_slice(table.entries.as_flattened());

    let mut text = Area { text, at: 0 };
    for record in entries.as_chunks_mut::<8>().0 {
        let at = text.put(table.name(record));
        record[..4].copy_from_slice(&at);
    }
    for record in nodes.as_chunks_mut::<12>().0 {
        let node = Node::read(record);
        if node.kind == SYMLINK {
            let at = text.put(table.body(node));
            record[4..8].copy_from_slice(&at);
        }
    }
}

fn header(table: &Table, len: usize) -> [u8; HEADER_LEN] {
    let mut header = [0; HEADER_LEN];
    header[..4].copy_from_slice(SIGNATURE);
    let counts = [table.nodes.len(), table.mounts.len(), table.entries.len()];
    for (field, count) in header[4..].chunks_exact_mut(2).zip(counts) {
        field.copy_from_slice(&(count as u16).to_le_bytes());
    }
    let text = len - HEADER_LEN - records_len(table);
    header[12..16].copy_from_slice(&(text as u32).to_le_bytes());
    header[16..].copy_from_slice(&(len as u32).to_le_bytes());
    header
}

/// The written text, full up to `at`.
struct Area<'a> {
    text: &'a mut [u8],
    at: usize,
}

impl Area<'_> {
    /// Appends a name or body; the field that says where it stands.
    fn put(&mut self, bytes: &[u8]) -> [u8; 4] {
        let at = self.at;
        self.text[at..][..bytes.len()].copy_from_slice(bytes);
        self.at += bytes.len();
        (at as u32).to_le_bytes()
    }
}
