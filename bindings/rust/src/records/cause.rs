//! Why a table is refused: the sentence of the rules that its record breaks.
//!
//! The check names a rule and a record; here the rule's sentences are asked of
//! that record, in their order, and the first that does not hold is the cause. So
//! what is said is always true of the bytes read.

use super::{
    entry_fields, long, mount_fields, node_fields, part, short, Records, ENTRY, MOUNT, NODE,
};
use crate::{Broken, Parts};
use core::cmp::Ordering;
use core::fmt;

/// What in an image breaks a rule, by [`Broken::cause`].
///
/// ```
/// use ventolaire::{bench_tree, Record, Table};
///
/// let mut image = bench_tree::IMAGE.to_vec();
/// image[20 + 12 * 3] = 9;
/// let cause = Table::new(&image).unwrap_err().cause(&image);
/// assert_eq!((cause.clause, cause.record), ("4.4a", Some(Record::Node(3))));
/// assert_eq!(cause.to_string(), "its kind is 9, not 1 to 4");
/// ```
#[derive(Clone, Copy, Debug, PartialEq, Eq, Hash)]
#[non_exhaustive]
pub struct Cause {
    /// The sentence's number in docs/RULES.md.
    pub clause: &'static str,
    /// The record of which it speaks, if it is one.
    pub record: Option<Record>,
    /// Words, with `{}` where a number stands.
    words: &'static str,
    numbers: [u64; 3],
}

impl Cause {
    /// The cause of a broken rule, by the sentence found broken; else the rule's own words.
    fn of(broken: &Broken, found: Option<Says>) -> Self {
        let rules = ["4", "4.1", "4.2", "4.3", "4.4", "4.5", "4.6", "4.7"];
        let Says(clause, words, numbers) = found.unwrap_or_else(|| {
            let clause = rules.get(broken.rule as usize).unwrap_or(&rules[0]);
            Says(clause, broken.rule_text(), [0; 3])
        });
        // The sum over all nodes is no node's own.
        let record = broken.record().filter(|_| clause != "4.4h");
        Cause { clause, record, words, numbers }
    }

    /// The same with another number in its words, which have one.
    #[cfg(feature = "std")]
    pub(crate) fn counting(self, number: u64) -> Self {
        Cause { numbers: [number, 0, 0], ..self }
    }

    /// The words, with a name in place of "node 3", "directory 3" or "mount 1" wherever one is
    /// known.
    #[cfg(feature = "std")]
    pub(crate) fn named(&self, name: impl Fn(Record) -> Option<String>) -> String {
        let mut words = self.words.split("{}");
        let mut text = String::from(words.next().unwrap_or_default());
        for (words, number) in words.zip(self.numbers) {
            let record = match text.rsplit(' ').nth(1) {
                Some("node" | "directory") => name(Record::Node(number)),
                Some("mount") => name(Record::Mount(number)),
                _ => None,
            };
            match record {
                Some(name) => {
                    text.truncate(text.trim_end().rfind(' ').map_or(0, |at| at + 1));
                    text.push_str(&name);
                }
                None => text.push_str(&number.to_string()),
            }
            text.push_str(words);
        }
        text
    }
}

impl fmt::Display for Cause {
    fn fmt(&self, f: &mut fmt::Formatter) -> fmt::Result {
        let mut words = self.words.split("{}");
        f.write_str(words.next().unwrap_or_default())?;
        words.zip(self.numbers).try_for_each(|(words, number)| write!(f, "{number}{words}"))
    }
}

/// A record of a table by its number.
///
/// ```
/// assert_eq!(ventolaire::Record::Entry(3).to_string(), "entry 3");
/// ```
#[derive(Clone, Copy, Debug, PartialEq, Eq, Hash)]
#[non_exhaustive]
pub enum Record {
    /// A node.
    Node(u64),
    /// An entry.
    Entry(u64),
    /// A mount.
    Mount(u64),
}

impl fmt::Display for Record {
    fn fmt(&self, f: &mut fmt::Formatter) -> fmt::Result {
        match self {
            Record::Node(number) => write!(f, "node {number}"),
            Record::Entry(number) => write!(f, "entry {number}"),
            Record::Mount(number) => write!(f, "mount {number}"),
        }
    }
}

impl Broken {
    /// The rule in words: what it asks.
    ///
    /// ```
    /// let broken = ventolaire::check(b"").unwrap_err();
    /// assert_eq!(broken.rule_text(), "an image has 20 to 65,536 bytes");
    /// ```
    pub const fn rule_text(&self) -> &'static str {
        match self.rule {
            1 => "an image has 20 to 65,536 bytes",
            2 => "an image begins with TOC1, and its header's zero field is 0",
            3 => "the header's counts are in range, and its lengths are those of the image",
            4 => "a node's kind is known, and its parent, first and count are right for it",
            5 => "an entry's name and node are right, and stand where they belong",
            6 => "a mount's root, parent and point are right, and no other is on its place",
            7 => "a magic link leads to a directory or file in a mount",
            _ => "a rule that has no words here",
        }
    }

    /// The record that breaks the rule, if it is one: not the header (rules 1 to 3).
    const fn record(&self) -> Option<Record> {
        match self.rule {
            4 | 7 => Some(Record::Node(self.record)),
            5 => Some(Record::Entry(self.record)),
            6 => Some(Record::Mount(self.record)),
            _ => None,
        }
    }

    /// What in the image breaks the rule. The image is the one that was checked:
    /// of another this says what is true there, or [`Broken::rule_text`].
    ///
    /// ```
    /// let broken = ventolaire::check(b"PNG").unwrap_err();
    /// assert_eq!(broken.cause(b"PNG").to_string(), "the image has 3 bytes, not 20 to 65,536");
    /// ```
    pub fn cause(&self, image: &[u8]) -> Cause {
        let parts = Records::of(image);
        let found = match self.rule {
            1 => length(image),
            2 => signature(image),
            3 => counts(image),
            _ => parts.broken(*self),
        };
        Cause::of(self, found)
    }
}

/// The most nodes, mounts and entries, and the most bytes.
pub(crate) const NODES: u64 = 4_096;
pub(crate) const MOUNTS: u64 = 256;
pub(crate) const ENTRIES: u64 = 4_096;
pub(crate) const BYTES: u64 = 65_536;

impl Parts<'_> {
    /// What in these parts breaks a rule, by which [`Parts::build_into`] has refused them.
    ///
    /// ```
    /// use ventolaire::{bench_tree, BuildError, Parts, Table};
    ///
    /// let parts = Parts { text: b"", ..Table::new(bench_tree::IMAGE)?.parts() };
    /// let Err(BuildError::Broken(broken)) = parts.build_into(&mut []) else { panic!() };
    /// let cause = parts.cause(broken);
    /// assert_eq!(cause.to_string(), "its body ends at byte 15 of the text, which has 0");
    /// # Ok::<(), ventolaire::Broken>(())
    /// ```
    pub fn cause(&self, broken: Broken) -> Cause {
        let records = Records::of_parts(self);
        let found = match broken.rule {
            1 => {
                let words = "the image would have {} bytes, over 65,536";
                says(records.written() > BYTES, "4.1", words, [records.written()])
            }
            3 => parts_counts(self, records),
            _ => records.broken(broken),
        };
        Cause::of(&broken, found)
    }
}

/// A sentence that is broken: its number, and how it is.
struct Says(&'static str, &'static str, [u64; 3]);

/// The sentence, if it is broken.
fn says<const N: usize>(
    broken: bool,
    clause: &'static str,
    words: &'static str,
    numbers: [u64; N],
) -> Option<Says> {
    let number = |i| numbers.get(i).copied().unwrap_or(0);
    broken.then(|| Says(clause, words, [number(0), number(1), number(2)]))
}

fn length(image: &[u8]) -> Option<Says> {
    let len = image.len() as u64;
    says(len > BYTES, "4.1", "the image has over 65,536 bytes", [])
        .or_else(|| says(len < 20, "4.1", "the image has {} bytes, not 20 to 65,536", [len]))
}

fn signature(image: &[u8]) -> Option<Says> {
    let [s0, s1, s2, s3, _, _, _, _, _, _, z0, z1, ..] = *image.first_chunk::<20>()?;
    let zero = short([z0, z1]);
    says([s0, s1, s2, s3] != *b"TOC1", "4.2", "its first bytes are not the signature TOC1", [])
        .or_else(|| says(zero != 0, "4.2", "the header's zero field is {}", [zero]))
}

fn counts(image: &[u8]) -> Option<Says> {
    let [_, _, _, _, n0, n1, m0, m1, e0, e1, _, _, t0, t1, t2, t3, l0, l1, l2, l3] =
        *image.first_chunk::<20>()?;
    let [n, m, e] = [[n0, n1], [m0, m1], [e0, e1]].map(short);
    let [text, total] = [[t0, t1, t2, t3], [l0, l1, l2, l3]].map(long);
    let (sum, len) = (20 + 12 * n + 8 * m + 8 * e + text, image.len() as u64);
    says(off(n, NODES), "4.3", "the header counts {} nodes, not 1 to 4,096", [n])
        .or_else(|| says(off(m, MOUNTS), "4.3", "the header counts {} mounts, not 1 to 256", [m]))
        .or_else(|| says(e > ENTRIES, "4.3", "the header counts {} entries, over 4,096", [e]))
        .or_else(|| {
            let words = "the header's total is {}, and what it counts has {} bytes";
            says(total != sum, "4.3", words, [total, sum])
        })
        .or_else(|| {
            let words = "the image has {} bytes, and the header's total is {}";
            says(len != total, "4.3", words, [len, total])
        })
}

/// Whether a count of what there must be one of at least is off.
fn off(count: u64, most: u64) -> bool {
    !(1..=most).contains(&count)
}

fn parts_counts(parts: &Parts, records: Records) -> Option<Says> {
    let Records { nodes, mounts, entries, .. } = records;
    let [n, m, e] = [nodes.len(), mounts.len(), entries.len()].map(|count| count as u64);
    let whole = nodes.len() * NODE == parts.nodes.len()
        && mounts.len() * MOUNT == parts.mounts.len()
        && entries.len() * ENTRY == parts.entries.len();
    says(off(n, NODES), "4.3", "there are {} nodes, not 1 to 4,096", [n])
        .or_else(|| says(off(m, MOUNTS), "4.3", "there are {} mounts, not 1 to 256", [m]))
        .or_else(|| says(e > ENTRIES, "4.3", "there are {} entries, over 4,096", [e]))
        .or_else(|| says(!whole, "4.3", "a record is cut short", []))
}

impl<'a> Records<'a> {
    /// The sentence that a record breaks.
    fn broken(self, broken: Broken) -> Option<Says> {
        match broken.rule {
            4 => node(self, broken.record),
            5 => entry(self, broken.record),
            6 => mount(self, broken.record),
            7 => magic_link(self, broken.record),
            _ => None,
        }
    }

    /// How long the image of these records is, by the lengths that they give.
    fn written(self) -> u64 {
        let Records { nodes, mounts, entries, .. } = self;
        let records = NODE * nodes.len() + MOUNT * mounts.len() + ENTRY * entries.len();
        let names: u64 = entries.iter().map(|record| entry_fields(record)[1]).sum();
        let fields = nodes.iter().map(node_fields);
        let bodies = fields.filter(|[kind, ..]| *kind == 3).map(|[.., count]| count);
        20 + records as u64 + names + bodies.sum::<u64>()
    }

    fn fields(self, node: u64) -> Option<[u64; 4]> {
        self.nodes.get(usize::try_from(node).ok()?).map(node_fields)
    }

    fn is_directory(self, node: u64) -> bool {
        matches!(self.fields(node), Some([1, ..]))
    }

    /// The directories: number, first and count.
    fn directories(self) -> impl Iterator<Item = [u64; 3]> + use<'a> {
        let fields = self.nodes.iter().map(node_fields).zip(0..);
        fields.filter_map(|([kind, _, first, count], n)| (kind == 1).then_some([n, first, count]))
    }

    /// The counts of the directories numbered below, summed.
    fn held_below(self, node: u64) -> u64 {
        let below = self.directories().take_while(|[number, ..]| *number < node);
        below.map(|[_, _, count]| count).sum()
    }

    /// The directory that holds an entry.
    fn holder(self, entry: u64) -> Option<u64> {
        let holds = |[_, first, count]: &[u64; 3]| (*first..first + count).contains(&entry);
        self.directories().find(holds).map(|[number, ..]| number)
    }

    /// Whether a directory is under another. Parents are lower, but at a top.
    fn under(self, mut node: u64, root: u64) -> bool {
        while node != root {
            match self.fields(node) {
                Some([_, parent, ..]) if parent < node => node = parent,
                _ => return false,
            }
        }
        true
    }

    fn name(self, entry: u64) -> Option<&'a [u8]> {
        let record = self.entries.get(usize::try_from(entry).ok()?)?;
        let [offset, length, _] = entry_fields(record);
        Some(part(self.text, offset, length))
    }
}

fn node(parts: Records, n: u64) -> Option<Says> {
    let Some([kind, parent, first, count]) = parts.fields(n) else {
        let (sum, entries) = (parts.held_below(n), parts.entries.len() as u64);
        let words = "the directories' counts sum to {}, and there are {} entries";
        return says(sum != entries, "4.4h", words, [sum, entries]);
    };
    let file = "its first is {} and its count {}, not 0 and 0 as a file's are";
    match kind {
        1 => directory(parts, n, parent, first),
        2..=4 if parent != 0 => {
            says(true, "4.4d", "its parent is {}, not 0, and it is no directory", [parent])
        }
        2 => says((first, count) != (0, 0), "4.4e", file, [first, count]),
        3 => body(parts, first, count),
        _ => says(kind != 4, "4.4a", "its kind is {}, not 1 to 4", [kind]),
    }
}

fn directory(parts: Records, n: u64, parent: u64, first: u64) -> Option<Says> {
    let held = parts.held_below(n);
    says(parent > n, "4.4b", "its parent is node {}, above its own number", [parent])
        .or_else(|| {
            let is_directory = parts.is_directory(parent);
            says(!is_directory, "4.4b", "its parent is node {}, no directory", [parent])
        })
        .or_else(|| {
            let words = "its first entry is {}, and the directories before it hold {}";
            says(first != held, "4.4c", words, [first, held])
        })
}

fn body(parts: Records, first: u64, count: u64) -> Option<Says> {
    let (end, text) = (first + count, parts.text.len() as u64);
    says(!(1..=4_095).contains(&count), "4.4f", "its body has {} bytes, not 1 to 4,095", [count])
        .or_else(|| {
            let words = "its body ends at byte {} of the text, which has {}";
            says(end > text, "4.4f", words, [end, text])
        })
        .or_else(|| {
            let at = place_of(0, part(parts.text, first, count))?;
            says(true, "4.4f", "its body has a zero byte, at {}", [at])
        })
}

/// Where in the bytes one is first found.
fn place_of(byte: u8, bytes: &[u8]) -> Option<u64> {
    bytes.iter().position(|&other| other == byte).map(|at| at as u64)
}

fn entry(parts: Records, e: u64) -> Option<Says> {
    let [offset, length, node] = entry_fields(parts.entries.get(usize::try_from(e).ok()?)?);
    let name = parts.name(e)?;
    let (end, text, nodes) = (offset + length, parts.text.len() as u64, parts.nodes.len() as u64);
    says(!(1..=255).contains(&length), "4.5a", "its name has {} bytes, not 1 to 255", [length])
        .or_else(|| {
            let words = "its name ends at byte {} of the text, which has {}";
            says(end > text, "4.5a", words, [end, text])
        })
        .or_else(|| says(true, "4.5b", "its name has a zero byte, at {}", [place_of(0, name)?]))
        .or_else(|| says(true, "4.5b", "its name has a slash, at byte {}", [place_of(b'/', name)?]))
        .or_else(|| says(name == b".", "4.5c", "its name is \".\"", []))
        .or_else(|| says(name == b"..", "4.5c", "its name is \"..\"", []))
        .or_else(|| {
            let words = "its node is {}, and there are {} nodes";
            says(node >= nodes, "4.5d", words, [node, nodes])
        })
        .or_else(|| order(parts, e, name))
        .or_else(|| named_directory(parts, e, node))
}

/// The names of a directory ascend.
fn order(parts: Records, e: u64, name: &[u8]) -> Option<Says> {
    let before = e.checked_sub(1)?;
    let holder = parts.holder(e)?;
    if parts.holder(before) != Some(holder) {
        return None;
    }
    let words = match name.cmp(parts.name(before)?) {
        Ordering::Greater => return None,
        Ordering::Equal => "its name is that of entry {} too, in the same directory, node {}",
        Ordering::Less => "its name comes before that of entry {} in its directory, node {}",
    };
    says(true, "4.5e", words, [before, holder])
}

/// A directory is named in its parent alone, and a top nowhere.
fn named_directory(parts: Records, e: u64, node: u64) -> Option<Says> {
    let Some([1, parent, ..]) = parts.fields(node) else { return None };
    let holder = parts.holder(e)?;
    says(parent == node, "4.5f", "it names node {}, the top of a tree", [node]).or_else(|| {
        let words = "it names directory {}, whose parent is node {}, in node {}";
        says(parent != holder, "4.5f", words, [node, parent, holder])
    })
}

fn mount(parts: Records, m: u64) -> Option<Says> {
    let [root, parent, point, zero] = mount_fields(parts.mounts.get(usize::try_from(m).ok()?)?);
    says(!parts.is_directory(root), "4.6a", "its root is node {}, no directory", [root])
        .or_else(|| says(zero != 0, "4.6b", "its zero field is {}", [zero]))
        .or_else(|| match m {
            0 => says(parent != 0, "4.6c", "its parent is mount {}, not itself", [parent]).or_else(
                || {
                    let words = "its point is node {}, not its root, node {}";
                    says(point != root, "4.6c", words, [point, root])
                },
            ),
            _ => says(parent >= m, "4.6d", "its parent is mount {}, not a lower one", [parent])
                .or_else(|| on(parts, parent, point))
                .or_else(|| clash(parts, m, parent, point)),
        })
}

/// A mount's point is below the root of its parent.
fn on(parts: Records, parent: u64, point: u64) -> Option<Says> {
    let [root, ..] = mount_fields(parts.mounts.get(usize::try_from(parent).ok()?)?);
    let outside = "its point, node {}, is not under node {}, the root of mount {}";
    says(!parts.is_directory(point), "4.6e", "its point is node {}, no directory", [point])
        .or_else(|| says(!parts.under(point, root), "4.6e", outside, [point, root, parent]))
        .or_else(|| {
            let words = "its point, node {}, is the root of mount {}, its parent";
            says(point == root, "4.6e", words, [point, parent])
        })
}

/// Two mounts on one place.
fn clash(parts: Records, m: u64, parent: u64, point: u64) -> Option<Says> {
    let before = parts.mounts.iter().zip(0..m).skip(1);
    let mut others = before.map(|(record, other)| (mount_fields(record), other));
    let (_, other) = others.find(|([_, p, n, _], _)| (*p, *n) == (parent, point))?;
    let words = "mount {} is on the same place: node {} in mount {}";
    says(true, "4.6f", words, [other, point, parent])
}

fn magic_link(parts: Records, n: u64) -> Option<Says> {
    let Some([4, _, mount, node]) = parts.fields(n) else { return None };
    let (mounts, nodes) = (parts.mounts.len() as u64, parts.nodes.len() as u64);
    let record = usize::try_from(mount).ok().and_then(|at| parts.mounts.get(at));
    let Some([root, ..]) = record.map(mount_fields) else {
        let words = "its target's mount is {}, and there are {} mounts";
        return says(true, "4.7a", words, [mount, mounts]);
    };
    let is_directory = parts.is_directory(node);
    let words = "its target's node is {}, and there are {} nodes";
    says(node >= nodes, "4.7b", words, [node, nodes])
        .or_else(|| {
            let is_file = matches!(parts.fields(node), Some([2, ..]));
            let words = "its target is node {}, itself a link";
            says(!is_directory && !is_file, "4.7b", words, [node])
        })
        .or_else(|| {
            let words = "its target, node {}, is not under node {}, the root of mount {}";
            says(is_directory && !parts.under(node, root), "4.7c", words, [node, root, mount])
        })
}
