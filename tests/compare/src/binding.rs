//! The Rust crate beside the independent resolver and builder: what its `Table` accepts,
//! reads and answers, what its `Descriptors` reply, and what its `Parts` write.

use crate::builder::{self, Built, ERANGE};
use crate::case::Case;
use crate::descriptors::{self, Reply};
use crate::generate::{Cases, Wanted};
use crate::resolver::{self, DIRECTORY, EUCLEAN, FILE, LINK, MAGIC};
use data::sequence::Step;
use ventolaire::{BuildError, Descriptors, Found, Handle, Node, Parts, Refusal, Table};

/// A node by the crate, in numbers and bytes as the resolver has them: kind,
/// parent, names with their nodes, body, target.
type Read<'a> = (u64, u64, Vec<(&'a [u8], u64)>, &'a [u8], (u64, u64));

fn read(node: Node) -> Read {
    match node {
        Node::Directory { parent, entries, .. } => {
            let entries = entries.map(|entry| (entry.name, entry.node)).collect();
            (DIRECTORY, parent, entries, b"", (0, 0))
        }
        Node::File { .. } => (FILE, 0, vec![], b"", (0, 0)),
        Node::Link { body, .. } => (LINK, 0, vec![], body, (0, 0)),
        Node::MagicLink { target, .. } => (MAGIC, 0, vec![], b"", (target.mount, target.node)),
        node => panic!("{node:?} is of no kind that the rules have"),
    }
}

/// The same by the resolver's own records.
fn expected<'a>(table: &resolver::Table<'a>, node: &resolver::Node) -> Read<'a> {
    let (mut entries, mut body, mut target) = (vec![], &b""[..], (0, 0));
    match node.kind {
        DIRECTORY => {
            let named = table.entries_of(node).iter();
            entries.extend(named.map(|entry| (table.name(entry).unwrap(), entry.node)));
        }
        LINK => body = table.text_part(node.first, node.count).unwrap(),
        MAGIC => target = (node.first, node.count),
        _ => {}
    }
    (node.kind, node.parent, entries, body, target)
}

fn reads_alike(table: &Table, expecting: &resolver::Table) {
    assert_eq!(table.nodes().len(), expecting.nodes.len());
    for ((number, node), expect) in table.nodes().zip(&expecting.nodes) {
        assert_eq!(read(node), expected(expecting, expect), "node {number}");
    }
    let mounts = table.mounts().map(|(_, mount)| (mount.root, mount.parent, mount.point));
    let expect = expecting.mounts.iter().map(|mount| (mount.root, mount.parent, mount.point));
    assert!(mounts.eq(expect));
    let entries = table.entries().map(|entry| (Some(entry.name), entry.node));
    let expect = expecting.entries.iter().map(|entry| (expecting.name(entry), entry.node));
    assert!(entries.eq(expect));
    assert_eq!(table.root().node, expecting.mounts[0].root);
}

fn numbers(answer: Result<Found, Refusal>) -> [u64; 6] {
    match answer {
        Ok(found) => {
            let (place, detail) = (found.place, Refusal::NO_DETAIL);
            [0, detail, place.mount, place.node, found.components, found.links]
        }
        Err(refusal) => {
            let errno = refusal.errno.number();
            [errno, refusal.detail, 0, 0, refusal.components, refusal.links]
        }
    }
}

/// A call on descriptors by the crate; what it does not tell is 0.
fn reply(descriptors: &mut Descriptors, step: &Step) -> Reply {
    let with = |[errno, detail, mount, node, components, links]: [u64; 6], given| {
        [errno, detail, mount, node, components, links, given]
    };
    let done = |given| [0, Refusal::NO_DETAIL, 0, 0, 0, 0, given];
    let replied = match step {
        Step::Open(open) => descriptors
            .open_raw(open.number, open.mark, &open.path[..], &open.how)
            .map(|opened| with(numbers(Ok(opened.found)), opened.descriptor)),
        Step::Dup(number) => descriptors.duplicate(*number).map(done),
        Step::Close(number) => descriptors.close(*number).map(|()| done(0)),
        Step::SetMark(number) => descriptors.set_mark(*number).map(|()| done(0)),
    };
    replied.unwrap_or_else(|refusal| with(numbers(Err(refusal)), 0))
}

#[test]
fn tables_are_accepted_and_read_alike() {
    let mut accepted = 0;
    for numbered in Cases::new(11, Wanted { tables: 5_000, ..Wanted::default() }) {
        let Case::Table(image) = &numbered.case else {
            continue;
        };
        match (Table::new(image), resolver::accept(image)) {
            (Ok(table), Ok(expected)) => {
                reads_alike(&table, &expected);
                accepted += 1;
            }
            (Err(broken), Err(expected)) => {
                assert_eq!((broken.rule, broken.record), (expected.rule, expected.record));
            }
            _ => panic!("one side accepts: {}", numbered.case),
        }
    }
    assert!(accepted > 1_000, "{accepted} accepted");
}

#[test]
fn calls_are_answered_alike() {
    let mut accepted = 0;
    for numbered in Cases::new(11, Wanted { calls: 10_000, ..Wanted::default() }) {
        let Case::Call(call) = &numbered.case else {
            continue;
        };
        let handle = Handle { mount: call.mount, node: call.node, mark: call.mark };
        let answer = match Table::new(&call.image) {
            Ok(table) => {
                accepted += 1;
                table.resolve_raw(handle, &call.path, &call.how)
            }
            Err(broken) => Err(broken.into()),
        };
        let (expected, _) = call.answer();
        assert_eq!(numbers(answer), expected.numbers(), "{}", numbered.case);
    }
    assert!(accepted > 5_000, "{accepted} over accepted tables");
}

#[test]
fn sequences_are_answered_alike() {
    let mut calls = 0;
    for numbered in Cases::new(11, Wanted { sequences: 500, ..Wanted::default() }) {
        let Case::Sequence(sequence) = &numbered.case else {
            continue;
        };
        let read = resolver::accept(&sequence.image).ok();
        let Ok(table) = Table::new(&sequence.image) else {
            assert!(read.is_none(), "{}", numbered.case);
            continue;
        };
        let mut got = table.descriptors();
        let mut expected = descriptors::Descriptors::start(read.as_ref());
        for step in &sequence.steps {
            calls += 1;
            let expecting = expected.act(read.as_ref(), step);
            assert_eq!(reply(&mut got, step), expecting, "{step} of {}", numbered.case);
            assert!(got.numbers().eq(expected.open_ones()), "{step} of {}", numbered.case);
        }
    }
    assert!(calls > 10_000, "{calls} calls");
}

fn lent(parts: &builder::Parts) -> Parts<'_> {
    let builder::Parts { nodes, mounts, entries, text } = parts;
    Parts { nodes, mounts, entries, text }
}

/// A build by the crate, in the builder's numbers.
fn built(parts: Parts, buffer: &mut [u8]) -> Built {
    let refused = |numbers| Built { numbers, image: Vec::new() };
    match parts.build_into(buffer) {
        Ok(table) => {
            let image = table.image().to_vec();
            Built { numbers: [0, 0, 0, image.len() as u64], image }
        }
        Err(BuildError::Broken(broken)) => refused([EUCLEAN, broken.rule, broken.record, 0]),
        Err(BuildError::Short { needed, .. }) => refused([ERANGE, 0, 0, needed as u64]),
        Err(other) => panic!("{other} is no refusal that the rules have"),
    }
}

#[test]
fn builds_are_answered_alike() {
    let mut written = 0;
    for numbered in Cases::new(11, Wanted { builds: 5_000, ..Wanted::default() }) {
        let Case::Build(build) = &numbered.case else {
            continue;
        };
        let expected = build.expected();
        let mut buffer = vec![0xA5; build.room];
        assert_eq!(built(lent(&build.parts), &mut buffer), expected, "{}", numbered.case);
        let (image, behind) = buffer.split_at(expected.image.len());
        assert!(image == expected.image && behind.iter().all(|byte| *byte == 0xA5));
        if expected.numbers[0] == 0 {
            let table = Table::new(image).expect("a written image is accepted");
            assert!(table.parts() == lent(&builder::Parts::of(image)), "{}", numbered.case);
            written += 1;
        }
    }
    assert!(written > 1_000, "{written} written");
}
