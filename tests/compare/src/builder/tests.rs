//! Answers worked out by hand.

use super::*;
use crate::generate::relaid;
use data::dice::Dice;
use data::fields::set;
use data::image::Tree;
use data::BENCH_TREE;

/// What is answered with room for any image.
fn numbers(parts: &Parts) -> Numbers {
    build(parts, LONGEST_IMAGE).numbers
}

fn rule(rule: u64, record: u64) -> Numbers {
    [EUCLEAN, rule, record, 0]
}

/// The bench tree's, whose image has 316 bytes: 12 nodes, 2 mounts, 10 entries and 56 bytes of
/// names and bodies.
fn bench() -> Parts {
    Parts::of(BENCH_TREE)
}

/// The same with a number in a record's field.
fn with_node(number: usize, field: usize, width: usize, value: usize) -> Parts {
    let mut parts = bench();
    set(&mut parts.nodes, 12 * number + field, width, value);
    parts
}

fn with_entry(number: usize, field: usize, width: usize, value: usize) -> Parts {
    let mut parts = bench();
    set(&mut parts.entries, 8 * number + field, width, value);
    parts
}

#[test]
fn the_smallest_image() {
    let mut parts = Parts { nodes: vec![0; 12], mounts: vec![0; 8], ..Parts::default() };
    parts.nodes[0] = 1;
    let smallest =
        "544f4331010001000000000000000000280000000100000000000000000000000000000000000000";
    let smallest = data::unhex(smallest).unwrap();
    assert_eq!(build(&parts, 40), Built { numbers: [0, 0, 0, 40], image: smallest.clone() });
    parts.text = b"unused".to_vec();
    assert_eq!(build(&parts, 99), Built { numbers: [0, 0, 0, 40], image: smallest });
}

#[test]
fn the_bench_tree() {
    let image = build(&bench(), 316).image;
    let text = [
        &b"lab"[..],
        b"cal",
        b"pool",
        b"abs",
        b"fd",
        b"loop",
        b"t",
        b"tare",
        b"up",
        b"run",
        b"../..",
        b"/lab/cal/tare",
        b"loop",
        b"tare/",
    ];
    assert_eq!(image[260..], text.concat());
    let read = crate::resolver::accept(&image).expect("accepted");
    let offsets = read.entries.iter().map(|entry| entry.offset);
    assert!(offsets.eq([0, 3, 6, 10, 13, 15, 19, 20, 24, 26]));
    let firsts = read.nodes.iter().map(|node| node.first);
    // Directories' are as they were, as is that of the magic link: its target is in mount 0.
    assert!(firsts.eq([0, 1, 3, 0, 29, 34, 47, 9, 9, 0, 0, 51]));
    let header = "544f43310c0002000a000000380000003c010000";
    assert_eq!(data::hex(&image[..20]), header);
}

#[test]
fn one_tree_has_one_image() {
    let image = build(&bench(), 316).image;
    assert_eq!(build(&Parts::of(&image), 316).image, image);
    for seed in 0..200 {
        let parts = relaid(&mut Dice::of(seed), &bench());
        assert_eq!(build(&parts, 400), Built { numbers: [0, 0, 0, 316], image: image.clone() });
    }
}

#[test]
fn a_short_buffer_is_refused_last() {
    let refused = Built { numbers: [ERANGE, 0, 0, 316], image: Vec::new() };
    for room in [0, 20, 315] {
        assert_eq!(build(&bench(), room), refused);
        for (parts, broken) in [
            (with_node(4, 8, 4, 65_536), rule(1, 0)),
            (Parts::default(), rule(3, 0)),
            (with_node(3, 0, 2, 5), rule(4, 3)),
            (with_entry(9, 6, 2, 12), rule(5, 9)),
        ] {
            assert_eq!(build(&parts, room).numbers, broken);
        }
    }
    for room in [316, 317, u64::MAX] {
        assert_eq!(build(&bench(), room).numbers, [0, 0, 0, 316]);
    }
}

#[test]
fn a_text_outside_breaks_its_records_rule() {
    let end = bench().text.len();
    // Node 6 has the body "loop", entry 7 the name "tare".
    for offset in [end - 3, end, end + 1, 0xFFFF_FFFC, 0xFFFF_FFFF] {
        assert_eq!(numbers(&with_node(6, 4, 4, offset)), rule(4, 6), "{offset}");
        assert_eq!(numbers(&with_entry(7, 0, 4, offset)), rule(5, 7), "{offset}");
    }
    // A body of four bytes at the end is inside, whatever it says.
    assert_eq!(numbers(&with_node(6, 4, 4, end - 4)), [0, 0, 0, 316]);
    // Rule 4 is the lower.
    let mut parts = with_entry(0, 0, 4, end);
    set(&mut parts.nodes, 12 * 11 + 4, 4, end);
    assert_eq!(numbers(&parts), rule(4, 11));
    parts.text.clear();
    assert_eq!(numbers(&parts), rule(4, 4));
}

#[test]
fn declared_lengths_count_wherever_they_lie() {
    // Of the 316 bytes four are the body of node 6, and four the name of entry 7.
    for (count, expected) in [
        (65_536 - 312, rule(4, 6)),
        (65_537 - 312, rule(1, 0)),
        (0x1_0004, rule(1, 0)),
        (0xFFFF_FFFF, rule(1, 0)),
    ] {
        assert_eq!(numbers(&with_node(6, 8, 4, count)), expected, "{count}");
    }
    assert_eq!(numbers(&with_entry(7, 4, 2, 65_536 - 312)), rule(5, 7));
    assert_eq!(numbers(&with_entry(7, 4, 2, 65_537 - 312)), rule(1, 0));
    // Two that come to 0 in 32 bits; and a count that is no body's.
    let mut parts = with_node(4, 8, 4, 0x8000_0000);
    set(&mut parts.nodes, 12 * 5 + 8, 4, 0x8000_0000);
    assert_eq!(numbers(&parts), rule(1, 0));
    assert_eq!(numbers(&with_node(3, 8, 4, 0xFFFF_FFFF)), rule(4, 3));
    assert_eq!(numbers(&with_node(10, 8, 4, 0xFFFF_FFFF)), rule(7, 10));
    // The caller's text may be longer than an image.
    let mut parts = bench();
    parts.text.resize(100_000, 0);
    assert_eq!(numbers(&parts), [0, 0, 0, 316]);
}

#[test]
fn a_cut_record_breaks_rule_3_and_is_not_counted() {
    for more in 1..12 {
        let mut parts = bench();
        parts.nodes.extend(vec![0; more]);
        assert_eq!(numbers(&parts), rule(3, 0));
        let mut parts = bench();
        parts.nodes.truncate(144 - more);
        assert_eq!(numbers(&parts), rule(3, 0));
    }
    for more in 1..8 {
        let mut parts = bench();
        parts.mounts.extend(vec![0; more]);
        assert_eq!(numbers(&parts), rule(3, 0));
        let mut parts = bench();
        parts.entries.extend(vec![0; more]);
        assert_eq!(numbers(&parts), rule(3, 0));
        // As long as an image can be without it.
        set(&mut parts.nodes, 12 * 6 + 8, 4, 65_536 - 312);
        assert_eq!(numbers(&parts), rule(3, 0));
        set(&mut parts.nodes, 12 * 6 + 8, 4, 65_537 - 312);
        assert_eq!(numbers(&parts), rule(1, 0));
    }
}

#[test]
fn counts_are_plain_numbers() {
    let files = |count: usize| {
        let mut parts = bench();
        for _ in 12..count {
            parts.nodes.extend([2, 0, 0, 0, 0, 0, 0, 0, 0, 0, 0, 0]);
        }
        numbers(&parts)
    };
    assert_eq!(files(4_096), [0, 0, 0, 316 + 12 * 4_084]);
    assert_eq!(files(4_097), rule(3, 0));
    // 20 + 12 N + 16 + 80 + 56 bytes.
    assert_eq!(files(5_447), rule(3, 0));
    assert_eq!(files(5_448), rule(1, 0));
    assert_eq!(files(65_536 + 12), rule(1, 0));
    let mut parts = bench();
    parts.mounts.clear();
    assert_eq!(numbers(&parts), rule(3, 0));
    parts.mounts.resize(8 * 257, 0);
    assert_eq!(numbers(&parts), rule(3, 0));
    parts.mounts.resize(8 * (65_536 + 2), 0);
    assert_eq!(numbers(&parts), rule(1, 0));
    assert_eq!(numbers(&Parts::default()), rule(3, 0));
}

/// A directory's is part of the tree.
#[test]
fn first_is_checked_and_not_rewritten() {
    for (node, first) in [(0, 1), (1, 0), (7, 0), (8, 10)] {
        assert_eq!(numbers(&with_node(node, 4, 4, first)), rule(4, node as u64));
    }
    assert_eq!(numbers(&with_node(8, 8, 4, 2)), rule(4, 12));
}

#[test]
fn the_check_of_the_image_tells_the_same() {
    assert_eq!(check_as_written(&bench()), Some([0, 0]));
    assert_eq!(check_as_written(&with_node(3, 0, 2, 5)), Some([4, 3]));
    assert_eq!(check_as_written(&with_entry(9, 6, 2, 12)), Some([5, 9]));
    let (mut tree, top) = Tree::mounted();
    let body = tree.text(&[b'a'; 4_095]);
    for _ in 0..16 {
        tree.link(body.clone());
    }
    // Shared, it is short; written, it is too long.
    let parts = Parts::of(&tree.image());
    assert_eq!((top, check_as_written(&parts)), (0, Some([1, 0])));
    assert_eq!(numbers(&parts), rule(1, 0));
    // Of these no image can tell.
    assert_eq!(check_as_written(&with_node(6, 4, 4, 99_999)), None);
    assert_eq!(check_as_written(&with_entry(0, 0, 4, 99_999)), None);
    let mut parts = bench();
    parts.mounts.pop();
    assert_eq!(check_as_written(&parts), None);
}
