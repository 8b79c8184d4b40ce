//! Answers worked out by hand over the bench tree, and counts of the halving alone.

use super::*;
use data::image::Tree;
use data::BENCH_TREE;

/// Directory 2 has the entries 3 to 8: "abs", "fd", "loop", "t", "tare" and "up". "loop" is
/// compared first, then "abs" or "tare".
#[test]
fn names_of_the_bench_tree() {
    for (node, name, expected) in [
        (2, "loop", [0, 5, 6, 1]),
        (2, "abs", [0, 3, 5, 2]),
        (2, "fd", [0, 4, 10, 3]),
        (2, "tare", [0, 7, 3, 2]),
        (2, "t", [0, 6, 11, 3]),
        (2, "up", [0, 8, 4, 3]),
        // Of two the earlier; and what is mounted on node 7 is not entered.
        (1, "cal", [0, 1, 2, 1]),
        (1, "pool", [0, 2, 7, 2]),
        (0, "lab", [0, 0, 1, 1]),
        (8, "run", [0, 9, 9, 1]),
    ] {
        assert_eq!(lookup(BENCH_TREE, node, name.as_bytes()), expected, "{name}");
    }
}

#[test]
fn absent_names_of_the_bench_tree() {
    let long = format!("loop{}", "x".repeat(256));
    for (node, name, compared) in [
        (2, "", 2),
        (2, ".", 2),
        (2, "..", 2),
        (2, "a", 2),
        (2, "b", 3),
        (2, "loop\0", 3),
        (2, "loop/", 3),
        (2, "tar", 3),
        (2, "tares", 3),
        (2, "z", 3),
        (2, &long, 3),
        (1, "a", 1),
        (1, "d", 2),
        (1, "z", 2),
        (0, "a", 1),
        (7, "a", 0),
        (7, "", 0),
    ] {
        let answer = lookup(BENCH_TREE, node, name.as_bytes());
        assert_eq!(answer, [ENOENT, 0, 0, compared], "{name:?}");
    }
    // Bytes are compared without a sign.
    assert_eq!(lookup(BENCH_TREE, 2, b"\xff"), [ENOENT, 0, 0, 3]);
}

#[test]
fn refusals_come_in_their_order() {
    for node in [3, 4, 10] {
        assert_eq!(lookup(BENCH_TREE, node, b"loop"), [ENOTDIR, 0, 0, 0]);
    }
    let cut = &BENCH_TREE[..BENCH_TREE.len() - 1];
    for node in [12, 65_535, 65_536, 65_538, 1 << 32, (1 << 32) + 2, u64::MAX] {
        assert_eq!(lookup(BENCH_TREE, node, b"loop"), [EBADF, 0, 0, 0]);
        assert_eq!(lookup(cut, node, b"loop"), [EUCLEAN, 0, 0, 0]);
    }
    assert_eq!(lookup(cut, 2, b"loop"), [EUCLEAN, 0, 0, 0]);
    assert_eq!(lookup(b"", 0, b""), [EUCLEAN, 0, 0, 0]);
}

/// How many names are compared for each of so many names, and for each gap beside them.
fn counts(many: usize) -> (Vec<u64>, Vec<u64>) {
    let names: Vec<String> = (0..many).map(|number| format!("{number:04}")).collect();
    let names: Vec<&[u8]> = names.iter().map(|name| name.as_bytes()).collect();
    let found = names.iter().map(|name| compared(&names, name));
    let behind = names.iter().map(|name| [name, &b"x"[..]].concat());
    let gaps = [Vec::new()].into_iter().chain(behind);
    (found.collect(), gaps.map(|gap| compared(&names, &gap)).collect())
}

#[test]
fn counts_of_few_names() {
    for (found, gaps) in [
        (&[][..], &[0][..]),
        (&[1], &[1, 1]),
        (&[1, 2], &[1, 2, 2]),
        (&[2, 1, 2], &[2, 2, 2, 2]),
        (&[2, 1, 2, 3], &[2, 2, 2, 3, 3]),
        (&[2, 3, 1, 2, 3], &[2, 3, 3, 2, 3, 3]),
    ] {
        assert_eq!(counts(found.len()), (found.to_vec(), gaps.to_vec()));
    }
}

/// Twice as many names can be found by each name that is compared more, and as many are but by
/// the last; beside them lie the gaps.
#[test]
fn counts_are_those_of_a_halving() {
    for many in (0..70).chain([127, 128, 129, 3_000, 4_095, 4_096]) {
        let (found, gaps) = counts(many);
        let digits = u64::from(usize::BITS - many.leading_zeros());
        for compared in 1..digits {
            let so_many = found.iter().filter(|count| **count == compared).count();
            assert_eq!(so_many, 1 << (compared - 1), "{many} names, {compared} compared");
        }
        assert!(found.iter().all(|count| (1..=digits).contains(count)), "{many} names");
        let least = if many + 1 == 1 << digits { digits } else { digits.saturating_sub(1) };
        assert!(gaps.iter().all(|count| (least..=digits).contains(count)), "{many} names");
        assert!(many == 0 || gaps.contains(&digits), "{many} names");
    }
}

/// The last of 3,000 names, and the longest way of all: that to the last of 4,096.
#[test]
fn many_names() {
    for (many, compared) in [(3_000, 12), (4_095, 12), (4_096, 13)] {
        let (mut tree, top) = Tree::mounted();
        let inner = tree.directory(top);
        let file = tree.file();
        for number in 0..many {
            tree.name(inner, format!("{number:04}"), file);
        }
        let last = many - 1;
        let answer = lookup(&tree.image(), inner as u64, format!("{last:04}").as_bytes());
        assert_eq!(answer, [0, last, file as u64, compared]);
    }
}
