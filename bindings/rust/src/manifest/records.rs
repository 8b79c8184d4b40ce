//! The records of a manifest, built.

use super::layout::{At, Layout, Mount, Node};
use super::numbers::Numbers;
use super::object::Path;
use super::{Kind, ManifestError, Problem};
use crate::records::{BYTES, ENTRIES, ENTRY, MOUNTS, NODE, NODES};
use crate::{Broken, BuildError, Parts, Record};

pub(super) fn build(layout: &Layout) -> Result<Vec<u8>, ManifestError> {
    let numbers = Numbers::of(layout);
    let records = Records::of(layout, &numbers);
    let parts = Parts {
        nodes: &records.nodes,
        mounts: &records.mounts,
        entries: &records.entries,
        text: &records.text,
    };
    parts.build().map_err(|error| match error {
        BuildError::Broken(broken) => Refused { layout, numbers, parts, broken }.error(),
        error => layout.mounts[0].at.error(Problem::Other(error.errno())),
    })
}

/// The four parts.
#[derive(Default)]
struct Records {
    nodes: Vec<u8>,
    mounts: Vec<u8>,
    entries: Vec<u8>,
    text: Vec<u8>,
}

impl Records {
    fn of(layout: &Layout, numbers: &Numbers) -> Self {
        let mut records = Records::default();
        numbers.nodes.iter().for_each(|at| records.node(&layout.nodes[*at], numbers));
        numbers.mounts.iter().for_each(|at| records.mount(&layout.mounts[*at], numbers));
        records
    }

    fn node(&mut self, node: &Node, numbers: &Numbers) {
        // The records before it are those of the nodes and directories numbered below.
        let (own, first) = (self.nodes.len() / NODE, self.entries.len() / ENTRY);
        let (kind, parent, first, count) = match node.kind {
            Kind::Directory(_) => {
                let parent = node.parent.map_or(own, |parent| numbers.node(parent));
                (1, parent, first, node.entries.len())
            }
            Kind::File => (2, 0, 0, 0),
            Kind::Link(body) => (3, 0, self.text(body), body.len()),
            Kind::Magic { .. } => {
                let (mount, node) = node.target;
                (4, 0, numbers.mount(mount), numbers.node(node))
            }
        };
        self.nodes.extend([short(kind), short(parent)].concat());
        self.nodes.extend([long(first), long(count)].concat());
        for entry in &node.entries {
            let offset = long(self.text(entry.name));
            let fields = [entry.name.len(), numbers.node(entry.node)].map(short);
            self.entries.extend(offset.into_iter().chain(fields.concat()));
        }
    }

    fn mount(&mut self, mount: &Mount, numbers: &Numbers) {
        let [root, point] = [mount.root, mount.point].map(|at| numbers.node(at));
        let fields = [root, numbers.mount(mount.parent), point, 0];
        self.mounts.extend(fields.map(short).concat());
    }

    /// Where bytes stand in the text.
    fn text(&mut self, bytes: &[u8]) -> usize {
        let at = self.text.len();
        self.text.extend(bytes);
        at
    }
}

/// A number as a field. What has no room in one is far above every limit, and so is what stands
/// for it: a name of 65,535 bytes is refused too, and so many nodes are.
fn short(number: usize) -> [u8; 2] {
    u16::try_from(number).unwrap_or(u16::MAX).to_le_bytes()
}

fn long(number: usize) -> [u8; 4] {
    u32::try_from(number).unwrap_or(u32::MAX).to_le_bytes()
}

/// A refusal of the builder.
struct Refused<'a> {
    layout: &'a Layout<'a>,
    numbers: Numbers,
    parts: Parts<'a>,
    broken: Broken,
}

impl Refused<'_> {
    fn error(&self) -> ManifestError {
        let cause = match (self.broken.rule, self.parts.cause(self.broken)) {
            // Fields may have no room for the lengths that make an image too long.
            (1, cause) => cause.counting(self.bytes()),
            (_, cause) => cause,
        };
        let reason = cause.named(|record| self.name(record));
        let (broken, record, clause) = (self.broken, cause.record, cause.clause);
        let at = match record {
            Some(record) => self.at(record),
            None => self.past_limit(),
        };
        let problem = Problem::Broken { broken, record, clause, reason };
        at.unwrap_or(self.layout.mounts[0].at).error(problem)
    }

    /// What a record was made of.
    fn at(&self, record: Record) -> Option<At<'_>> {
        match record {
            Record::Node(number) => {
                self.numbers.nodes.get(number as usize).map(|at| self.layout.nodes[*at].at)
            }
            Record::Entry(number) => {
                let nodes = self.numbers.nodes.iter();
                let mut entries = nodes.flat_map(|at| &self.layout.nodes[*at].entries);
                entries.nth(number as usize).map(|entry| entry.at)
            }
            Record::Mount(number) => {
                self.numbers.mounts.get(number as usize).map(|at| self.layout.mounts[*at].at)
            }
        }
    }

    /// A record as a manifest names it. Mount 0 has no point to be named by.
    fn name(&self, record: Record) -> Option<String> {
        let path = Path(self.at(record)?.path);
        match record {
            Record::Mount(0) => None,
            Record::Mount(_) => Some(format!("the mount on {path}")),
            _ => Some(path.to_string()),
        }
    }

    /// The first that is too many.
    fn past_limit(&self) -> Option<At<'_>> {
        match self.broken.rule {
            1 => self.past_bytes(),
            _ => self.at(Record::Node(NODES)).or_else(|| {
                self.at(Record::Mount(MOUNTS)).or_else(|| self.at(Record::Entry(ENTRIES)))
            }),
        }
    }

    /// The node with which the image has more bytes than it may, or the mount: these come first.
    fn past_bytes(&self) -> Option<At<'_>> {
        let mut bytes = 20 + 8 * self.layout.mounts.len() as u64;
        if bytes > BYTES {
            return self.at(Record::Mount((BYTES - 20) / 8));
        }
        let past = self.numbers.nodes.iter().zip(self.sizes()).find(|(_, size)| {
            bytes += size;
            bytes > BYTES
        });
        past.map(|(at, _)| self.layout.nodes[*at].at)
    }

    /// How long the image would be.
    fn bytes(&self) -> u64 {
        20 + 8 * self.layout.mounts.len() as u64 + self.sizes().iter().sum::<u64>()
    }

    /// The bytes of each node, in their order, with its body and its names.
    fn sizes(&self) -> Vec<u64> {
        let mut named = vec![0; self.layout.nodes.len()];
        for entry in self.layout.nodes.iter().flat_map(|node| &node.entries) {
            named[entry.node] += 8 + entry.name.len() as u64;
        }
        let size = |at: &usize| match self.layout.nodes[*at].kind {
            Kind::Link(body) => 12 + body.len() as u64 + named[*at],
            _ => 12 + named[*at],
        };
        self.numbers.nodes.iter().map(size).collect()
    }
}
