//! The table check in time linear in the image, whatever the image says: the
//! second baseline.
//!
//! [`plain`](crate::plain) reads a name or a body byte by byte each time it is
//! used, and follows parents for each mount, so a table that shares text or
//! nests deep costs it more than its size. Here the text is marked once, so that
//! a part of it is known to be clean in a few steps, and the forest of parents
//! is numbered once, so that "under" is one comparison. Both are done only once
//! the plain way has taken some steps, so that small tables pay for neither.
//! Names are compared as slices, of at most 255 bytes.
//!
//! Nothing is unsafe, and nothing is allocated but the marks and the numbers,
//! once a check. The verdict is plain's for every input.

use crate::plain::Broken;

const HEADER_LEN: usize = 20;
const DIRECTORY: u16 = 1;
const FILE: u16 = 2;
const SYMLINK: u16 = 3;
const MAGIC_LINK: u16 = 4;

pub fn check(image: &[u8]) -> Result<(), Broken> {
    let table = Table::open(image).map_err(|rule| Broken { rule, record: 0 })?;
    let mut under = Under::new(table.nodes);
    table
        .check_nodes()
        .map_err(|record| (4, record))
        .and_then(|()| table.check_entries().map_err(|record| (5, record)))
        .and_then(|()| table.check_mounts(&mut under).map_err(|record| (6, record)))
        .and_then(|()| table.check_magic_links(&mut under).map_err(|record| (7, record)))
        .map_err(|(rule, record)| Broken { rule, record: record as u32 })
}

fn u16_at(bytes: &[u8], at: usize) -> u16 {
    u16::from_le_bytes([bytes[at], bytes[at + 1]])
}

fn u32_at(bytes: &[u8], at: usize) -> u32 {
    u32::from_le_bytes([bytes[at], bytes[at + 1], bytes[at + 2], bytes[at + 3]])
}

fn kind(node: &[u8; 12]) -> u16 {
    u16_at(node, 0)
}

fn parent(node: &[u8; 12]) -> u16 {
    u16_at(node, 2)
}

fn first(node: &[u8; 12]) -> u32 {
    u32_at(node, 4)
}

fn count(node: &[u8; 12]) -> u32 {
    u32_at(node, 8)
}

struct Mount {
    root: u16,
    parent: u16,
    point: u16,
    zero: u16,
}

fn mount(record: &[u8; 8]) -> Mount {
    let [root, parent, point, zero] = [0, 2, 4, 6].map(|at| u16_at(record, at));
    Mount { root, parent, point, zero }
}

/// The parts of an image that keeps rules 1 to 3.
struct Table<'a> {
    nodes: &'a [[u8; 12]],
    mounts: &'a [[u8; 8]],
    entries: &'a [[u8; 8]],
    text: &'a [u8],
}

impl<'a> Table<'a> {
    /// Rules 1 to 3; the error is the rule broken.
    fn open(image: &'a [u8]) -> Result<Self, u8> {
        if !(HEADER_LEN..=65_536).contains(&image.len()) {
            return Err(1);
        }
        if !image.starts_with(b"TOC1") || u16_at(image, 10) != 0 {
            return Err(2);
        }
        let [nodes, mounts, entries] = [4, 6, 8].map(|at| usize::from(u16_at(image, at)));
        let text = u32_at(image, 12);
        let total = (HEADER_LEN + 12 * nodes + 8 * mounts + 8 * entries) as u64 + u64::from(text);
        if !(1..=4_096).contains(&nodes)
            || !(1..=256).contains(&mounts)
            || entries > 4_096
            || total != image.len() as u64
            || u64::from(u32_at(image, 16)) != total
        {
            return Err(3);
        }
        let (nodes, rest) = image[HEADER_LEN..].split_at(12 * nodes);
        let (mounts, rest) = rest.split_at(8 * mounts);
        let (entries, text) = rest.split_at(8 * entries);
        Ok(Table {
            nodes: nodes.as_chunks().0,
            mounts: mounts.as_chunks().0,
            entries: entries.as_chunks().0,
            text,
        })
    }

    fn is_directory(&self, number: u16) -> bool {
        self.nodes.get(usize::from(number)).is_some_and(|node| kind(node) == DIRECTORY)
    }

    /// Rule 4; here and below the error is the record that breaks the rule.
    #[inline(never)] // one rule's loop would cost the others registers
    fn check_nodes(&self) -> Result<(), usize> {
        let mut bodies = Clean::<false>::new(self.text);
        let mut entries = 0_u64;
        for (number, node) in self.nodes.iter().enumerate() {
            let parent = parent(node);
            let holds = match kind(node) {
                DIRECTORY => {
                    let holds = usize::from(parent) <= number
                        && kind(&self.nodes[usize::from(parent)]) == DIRECTORY
                        && u64::from(first(node)) == entries;
                    entries += u64::from(count(node));
                    holds
                }
                FILE => parent == 0 && first(node) == 0 && count(node) == 0,
                SYMLINK => {
                    parent == 0
                        && (1..=4_095).contains(&count(node))
                        && bodies.part(first(node), count(node)).is_some()
                }
                MAGIC_LINK => parent == 0,
                _ => false,
            };
            if !holds {
                return Err(number);
            }
        }
        if entries == self.entries.len() as u64 {
            Ok(())
        } else {
            Err(self.nodes.len())
        }
    }

    /// Rule 5. By rule 4 the directories, in order, own all entries, in order.
    #[inline(never)]
    fn check_entries(&self) -> Result<(), usize> {
        let mut names = Clean::<true>::new(self.text);
        let mut checked = 0;
        for (number, node) in self.nodes.iter().enumerate() {
            if checked == self.entries.len() {
                break;
            }
            if kind(node) != DIRECTORY {
                continue;
            }
            // Every name comes after the empty one, so an empty name never does.
            let mut previous: &[u8] = b"";
            for entry in &self.entries[checked..][..count(node) as usize] {
                match self.check_entry(entry, number, previous, &mut names) {
                    Some(name) => previous = name,
                    None => return Err(checked),
                }
                checked += 1;
            }
        }
        Ok(())
    }

    /// The name of a directory's entry, if the entry keeps rule 5.
    #[inline]
    fn check_entry(
        &self,
        entry: &[u8; 8],
        directory: usize,
        previous: &[u8],
        names: &mut Clean<'a, true>,
    ) -> Option<&'a [u8]> {
        let entry = u64::from_le_bytes(*entry);
        let (name_at, name_len, to) = (entry as u32, (entry >> 32) as u16, (entry >> 48) as u16);
        let node = self.nodes.get(usize::from(to))?;
        if name_len > 255
            || kind(node) == DIRECTORY
                && (usize::from(parent(node)) != directory || usize::from(to) <= directory)
        {
            return None;
        }
        let name = names.part(name_at, u32::from(name_len))?;
        (name > previous && name != b"." && name != b"..").then_some(name)
    }

    /// Rule 6.
    #[inline(never)]
    fn check_mounts(&self, under: &mut Under) -> Result<(), usize> {
        // Clashes aside, the mounts before this one keep the rule.
        let end = (0..self.mounts.len()).find(|&number| !self.check_mount(number, under));
        let sound = &self.mounts[..end.unwrap_or(self.mounts.len())];
        match lowest_clash(sound).or(end) {
            Some(number) => Err(number),
            None => Ok(()),
        }
    }

    /// Whether a mount keeps rule 6, clashes aside.
    fn check_mount(&self, number: usize, under: &mut Under) -> bool {
        let Mount { root, parent, point, zero } = mount(&self.mounts[number]);
        if !self.is_directory(root) || zero != 0 {
            return false;
        }
        if number == 0 {
            return parent == 0 && point == root;
        }
        usize::from(parent) < number && {
            let parent_root = mount(&self.mounts[usize::from(parent)]).root;
            point != parent_root && self.is_directory(point) && under.holds(point, parent_root)
        }
    }

    /// Rule 7.
    #[inline(never)]
    fn check_magic_links(&self, under: &mut Under) -> Result<(), usize> {
        for (number, link) in self.nodes.iter().enumerate() {
            if kind(link) != MAGIC_LINK {
                continue;
            }
            let target = self.nodes.get(count(link) as usize);
            let holds = match (self.mounts.get(first(link) as usize), target.map(kind)) {
                (Some(record), Some(DIRECTORY)) => {
                    under.holds(count(link) as u16, mount(record).root)
                }
                (Some(_), Some(FILE)) => true,
                _ => false,
            };
            if !holds {
                return Err(number);
            }
        }
        Ok(())
    }
}

/// The lowest mount that shares parent and point with one before it, mount 0
/// aside. Parents are mounts numbered below, points are nodes.
///
/// The mounts are gathered by parent, and the points of each parent are ticked
/// off in one set, which is empty again before the next parent's.
fn lowest_clash(mounts: &[[u8; 8]]) -> Option<usize> {
    if mounts.len() < 3 {
        return None;
    }
    // The lowest mount of each parent, and after each mount the next one of the
    // same parent. Mount 0 is in no such row, so 0 ends one.
    let mut lowest_of = [0_u8; 256];
    let mut next = [0_u8; 256];
    for number in (1..mounts.len()).rev() {
        let parent = usize::from(mount(&mounts[number]).parent);
        next[number] = lowest_of[parent];
        lowest_of[parent] = number as u8;
    }

    let point = |number: u8| usize::from(mount(&mounts[usize::from(number)]).point);
    let mut points = [0_u64; 4_096 / 64];
    let mut lowest = None;
    for &start in &lowest_of[..mounts.len()] {
        // A mount alone in its parent clashes with none.
        if next[usize::from(start)] == 0 {
            continue;
        }
        let mut number = start;
        while number != 0 {
            let point = point(number);
            let (word, bit) = (&mut points[point / 64], 1 << (point % 64));
            if *word & bit != 0 {
                lowest = Some(lowest.map_or(number, |lowest: u8| lowest.min(number)));
                break;
            }
            *word |= bit;
            number = next[usize::from(number)];
        }
        let end = number;
        let mut number = start;
        while number != end {
            points[point(number) / 64] = 0;
            number = next[usize::from(number)];
        }
    }
    lowest.map(usize::from)
}

/// Whether one directory is under another, over nodes that keep rule 4.
///
/// Parents are followed as long as all climbs together have taken no more steps
/// than there are nodes. After that the forest is numbered, each directory
/// before those under it, so that these have the numbers after its own.
struct Under<'a> {
    nodes: &'a [[u8; 12]],
    steps_left: usize,
    spans: Vec<Span>,
}

/// The numbers of a node and of those under it.
#[derive(Clone, Copy)]
struct Span {
    len: u16,
    /// One above the last of them. While nodes are numbered, one above the last
    /// that is numbered.
    end: u16,
}

impl Span {
    /// The node's own number, the first of them.
    fn start(&self) -> u16 {
        self.end - self.len
    }

    fn is_in(&self, root: &Span) -> bool {
        (root.start()..root.end).contains(&self.start())
    }
}

impl<'a> Under<'a> {
    fn new(nodes: &'a [[u8; 12]]) -> Self {
        Under { nodes, steps_left: nodes.len(), spans: Vec::new() }
    }

    #[inline]
    fn holds(&mut self, node: u16, root: u16) -> bool {
        match [node, root].map(|number| self.spans.get(usize::from(number))) {
            [Some(node), Some(root)] => node.is_in(root),
            _ => self.follow(node, root),
        }
    }

    /// As [`Under::holds`], as long as nodes are not numbered.
    #[inline(never)]
    fn follow(&mut self, node: u16, root: u16) -> bool {
        self.climb(node, root).unwrap_or_else(|| {
            self.number();
            self.spans[usize::from(node)].is_in(&self.spans[usize::from(root)])
        })
    }

    /// Whether following parents meets the root, if steps are left to tell.
    fn climb(&mut self, mut node: u16, root: u16) -> Option<bool> {
        let mut steps_left = self.steps_left;
        // A parent is numbered below its child, so from below root the climb
        // cannot meet it any more.
        while node > root {
            steps_left = steps_left.checked_sub(1)?;
            let parent = parent(&self.nodes[usize::from(node)]);
            if parent == node {
                break;
            }
            node = parent;
        }
        self.steps_left = steps_left;
        Some(node == root)
    }

    /// Numbers all nodes. Those that are no directories count as children of
    /// node 0, and are never asked about.
    fn number(&mut self) {
        self.spans = vec![Span { len: 1, end: 1 }; self.nodes.len()];
        let spans = self.spans.as_mut_slice();
        for (number, node) in self.nodes.iter().enumerate().rev() {
            let parent = usize::from(parent(node));
            if parent != number {
                spans[parent].len += spans[number].len;
            }
        }
        let mut tops = 0;
        for (number, node) in self.nodes.iter().enumerate() {
            let parent = usize::from(parent(node));
            let next = if parent == number { &mut tops } else { &mut spans[parent].end };
            let start = *next;
            *next += spans[number].len;
            spans[number].end = start + 1;
        }
    }
}

/// The parts of a text that are inside it and free of zero bytes, and of slashes
/// if `SLASH` says so.
///
/// The first few parts are read. Once they come to more than [`Clean::READ`]
/// bytes, the bytes looked for are marked in the whole text, by blocks, and each
/// part after that costs the same, however long it is.
struct Clean<'a, const SLASH: bool> {
    text: &'a [u8],
    read: usize,
    /// The last block comes first, as they are marked from the end.
    blocks: Vec<Block>,
}

#[derive(Clone, Copy)]
struct Block {
    /// Which of its 64 bytes are marked, the first in the lowest bit.
    marks: u64,
    /// Where the first marked byte behind the block is.
    behind: usize,
}

impl Block {
    /// The first marked byte from `at` on, which is in the block.
    fn next(&self, at: usize) -> usize {
        match self.marks >> (at % 64) {
            0 => self.behind,
            marks => at + marks.trailing_zeros() as usize,
        }
    }
}

impl<'a, const SLASH: bool> Clean<'a, SLASH> {
    /// Marking a text pays from about as many bytes on.
    const READ: usize = 128;

    fn new(text: &'a [u8]) -> Self {
        Clean { text, read: 0, blocks: Vec::new() }
    }

    /// `len` bytes of text from `at`, if they are inside it and clean.
    #[inline]
    fn part(&mut self, at: u32, len: u32) -> Option<&'a [u8]> {
        let (at, len) = (at as usize, len as usize);
        let part = self.text.get(at..)?.get(..len)?;
        // An empty part may start at the text's end, where a block begins too.
        let is_clean = match self.blocks.get(self.text.len() / 64 - at / 64) {
            Some(block) => block.next(at) >= at + len,
            None => self.read(at, part),
        };
        is_clean.then_some(part)
    }

    /// Whether a part is clean, as long as the text is not marked.
    #[cold]
    fn read(&mut self, at: usize, part: &[u8]) -> bool {
        self.read += part.len();
        if self.read <= Self::READ {
            return !part.iter().any(|&byte| byte == 0 || SLASH && byte == b'/');
        }
        self.mark();
        self.blocks[self.text.len() / 64 - at / 64].next(at) >= at + part.len()
    }

    fn mark(&mut self) {
        let (blocks, rest) = self.text.as_chunks::<64>();
        let mut last = [1; 64];
        last[..rest.len()].copy_from_slice(rest);

        self.blocks.reserve_exact(blocks.len() + 1);
        let mut start = 64 * (blocks.len() + 1);
        let mut behind = usize::MAX;
        for block in blocks.iter().chain([&last]).rev() {
            start -= 64;
            // Most blocks have none, which is told without a look at each byte.
            let marks = if any_marked::<SLASH>(block) { marks::<SLASH>(block) } else { 0 };
            self.blocks.push(Block { marks, behind });
            if marks != 0 {
                behind = start + marks.trailing_zeros() as usize;
            }
        }
    }
}

fn any_marked<const SLASH: bool>(bytes: &[u8; 64]) -> bool {
    // No early exit, so that many bytes are looked at by one instruction.
    let has = |wanted: u8| bytes.iter().fold(false, |has, &byte| has | (byte == wanted));
    has(0) | (SLASH && has(b'/'))
}

fn marks<const SLASH: bool>(block: &[u8; 64]) -> u64 {
    let words = block.as_chunks().0.iter().map(|&word| u64::from_le_bytes(word));
    words.enumerate().fold(0, |marks, (i, word)| {
        let slashes = if SLASH { equal(word, b'/') } else { 0 };
        // The lowest bit of each byte, gathered in the top byte.
        let bits = ((equal(word, 0) | slashes) >> 7).wrapping_mul(0x0102_0408_1020_4080) >> 56;
        marks | bits << (8 * i)
    })
}

/// The top bit of each byte of the word that equals `byte`.
fn equal(word: u64, byte: u8) -> u64 {
    const LOW: u64 = u64::from_ne_bytes([0x7F; 8]);
    let word = word ^ u64::from_ne_bytes([byte; 8]);
    !(((word & LOW) + LOW) | word | LOW)
}
