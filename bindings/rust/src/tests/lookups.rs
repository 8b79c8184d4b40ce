//! Names looked up. The counts were worked out by hand: of k names left, the first of which is
//! entry f, entry f + (k - 1) / 2 is compared.

use super::descriptors::Dice;
use crate::bench_tree::IMAGE;
use crate::*;
use std::cmp::Ordering;

/// By both functions.
fn looked(image: &[u8], node: u64, name: &[u8]) -> Result<FoundName, NameRefusal> {
    let answer = lookup(image, node, name);
    assert_eq!(Table::new(image).unwrap().lookup(node, name), answer);
    answer
}

/// Entry, node and names compared.
fn found(entry: u64, node: u64, compared: u64) -> Result<FoundName, NameRefusal> {
    Ok(FoundName { entry, node, compared })
}

fn refused(errno: Errno, compared: u64) -> Result<FoundName, NameRefusal> {
    Err(NameRefusal { errno, compared })
}

/// In "cal" stand abs, fd, loop, t, tare, up, from entry 3 on: loop is compared first, then abs
/// or tare, then fd, t or up.
#[test]
fn names_in_the_bench_tree_are_found() {
    for (node, name, answer) in [
        (0, "lab", found(0, 1, 1)),
        (1, "cal", found(1, 2, 1)),
        (1, "pool", found(2, 7, 2)),
        (2, "abs", found(3, 5, 2)),
        (2, "fd", found(4, 10, 3)),
        (2, "loop", found(5, 6, 1)),
        (2, "t", found(6, 11, 3)),
        (2, "tare", found(7, 3, 2)),
        (2, "up", found(8, 4, 3)),
        (8, "run", found(9, 9, 1)),
    ] {
        assert_eq!(looked(IMAGE, node, name.as_bytes()), answer, "{name} in {node}");
    }
}

#[test]
fn names_that_are_not_there_are_refused() {
    let long = [b'u'; 70_000];
    let rows: &[(u64, &[u8], u64)] = &[
        (0, b"cal", 1),
        (0, b"", 1),
        (1, b"a", 1),
        (1, b"ca", 1),
        (1, b"call", 2),
        (1, b"run", 2),
        (2, b"", 2),
        (2, b".", 2),
        (2, b"..", 2),
        (2, b"a/b", 2),
        (2, b"ab", 2),
        (2, b"ABS", 2),
        (2, b"abs\0", 3),
        (2, b"lab", 3),
        (2, b"loop/", 3),
        (2, b"nope", 3),
        (2, b"tar", 3),
        (2, b"tare/", 3),
        (2, b"\xff", 3),
        (2, &long, 3),
        (7, b"run", 0),
        (7, b"", 0),
    ];
    for (node, name, compared) in rows {
        let shown = name[..name.len().min(9)].escape_ascii();
        let answer = refused(Errno::ENOENT, *compared);
        assert_eq!(looked(IMAGE, *node, name), answer, "{shown} in {node}");
    }
}

/// EUCLEAN, EBADF and ENOTDIR come before the name, whatever it is.
#[test]
fn what_is_no_directory_is_refused_before_its_names() {
    for name in [&b"lab"[..], b"", b"..", b"\0"] {
        for node in [3, 4, 5, 6, 9, 10, 11] {
            assert_eq!(looked(IMAGE, node, name), refused(Errno::ENOTDIR, 0), "{node}");
        }
        for node in [12, 13, 1 << 16, 1 << 32, (1 << 32) + 2, u64::MAX] {
            assert_eq!(looked(IMAGE, node, name), refused(Errno::EBADF, 0), "{node}");
        }
        for node in [0, 3, 12, u64::MAX] {
            assert_eq!(lookup(b"", node, name), refused(Errno::EUCLEAN, 0), "{node}");
        }
    }
}

#[test]
fn answers_are_told_in_words() {
    let table = Table::new(IMAGE).unwrap();
    let told = |node: u64, name: &str| match table.lookup(node, name) {
        Ok(found) => found.to_string(),
        Err(refusal) => refusal.to_string(),
    };
    assert_eq!(told(2, "loop"), "entry 5, node 6; 1 name compared");
    assert_eq!(told(2, "up"), "entry 8, node 4; 3 names compared");
    assert_eq!(told(0, "up"), "ENOENT (2); 1 name compared");
    assert_eq!(told(7, "up"), "ENOENT (2); 0 names compared");
    assert_eq!(told(3, "up"), "ENOTDIR (20); 0 names compared");
    assert_eq!(told(12, "up"), "EBADF (9); 0 names compared");
    let refusal = lookup(b"", 2, "up").unwrap_err();
    assert_eq!(refusal.to_string(), "EUCLEAN (117); 0 names compared");
}

/// Name `at` of those in [`directory`]: two bytes, ascending.
fn name(at: usize) -> [u8; 2] {
    [at / 64, at % 64].map(|digit| b'@' + digit as u8)
}

/// An image of a directory, node 0, with so many names of a file, node 1.
fn directory(count: usize) -> Vec<u8> {
    let short = |number: usize| (number as u16).to_le_bytes();
    let long = |number: usize| (number as u32).to_le_bytes();
    let mut image = b"TOC1".to_vec();
    image.extend([2, 1, count, 0].map(short).concat());
    image.extend([2 * count, 20 + 24 + 8 + 10 * count].map(long).concat());
    image.extend([short(1), short(0)].concat());
    image.extend([0, count].map(long).concat());
    image.extend([2, 0, 0, 0, 0, 0].map(short).concat());
    image.extend([0; 8]);
    for at in 0..count {
        image.extend(long(2 * at));
        image.extend([2, 1].map(short).concat());
    }
    image.extend((0..count).flat_map(name));
    image
}

/// How many names are compared for each name, and for what stands before each and behind the last.
fn counts(image: &[u8], count: usize) -> (Vec<u64>, Vec<u64>) {
    let table = Table::new(image).unwrap();
    let names = (0..count).map(|at| {
        let found = table.lookup(0, name(at)).unwrap();
        assert_eq!((found.entry, found.node), (at as u64, 1));
        found.compared
    });
    let between = (0..=count).map(|at| {
        // Behind the name before it, of which it is longer by a byte.
        let name = at.checked_sub(1).map(|before| [&name(before)[..], b"0"].concat());
        let refusal = table.lookup(0, name.unwrap_or_default().as_slice()).unwrap_err();
        assert_eq!(refusal.errno, Errno::ENOENT);
        refusal.compared
    });
    (names.collect(), between.collect())
}

/// The left side of k names has (k - 1) / 2 of them, the right side k / 2: its counts are those
/// of a directory of that size, and one more.
#[test]
fn the_middle_is_compared_and_of_two_the_earlier() {
    let rows: &[(&[u64], &[u64])] = &[
        (&[], &[0]),
        (&[1], &[1, 1]),
        (&[1, 2], &[1, 2, 2]),
        (&[2, 1, 2], &[2, 2, 2, 2]),
        (&[2, 1, 2, 3], &[2, 2, 2, 3, 3]),
        (&[2, 3, 1, 2, 3], &[2, 3, 3, 2, 3, 3]),
        (&[2, 3, 1, 3, 2, 3], &[2, 3, 3, 3, 3, 3, 3]),
        (&[3, 2, 3, 1, 3, 2, 3], &[3; 8]),
        (&[3, 2, 3, 1, 3, 2, 3, 4], &[3, 3, 3, 3, 3, 3, 3, 4, 4]),
    ];
    for (count, (names, between)) in rows.iter().enumerate() {
        let image = directory(count);
        assert_eq!(counts(&image, count), (names.to_vec(), between.to_vec()), "{count}");
    }
}

/// Of 2^n - 1 names the middle is that numbered 2^(n - 1), counted from 1, and either side has
/// 2^(n - 1) - 1: so a number's trailing zeros tell when it is compared.
#[test]
fn a_full_directory_is_halved_evenly() {
    for digits in 0..=12 {
        let count = (1 << digits) - 1;
        let names = (1..=count).map(|number: usize| u64::from(digits - number.trailing_zeros()));
        let between = vec![u64::from(digits); count + 1];
        assert_eq!(counts(&directory(count), count), (names.collect(), between), "{count}");
    }
}

/// As many as the count has binary digits are enough, and behind the last name they are needed.
#[test]
fn no_more_names_are_compared_than_the_count_has_digits() {
    for (count, digits) in [(1_000, 10), (3_000, 12), (4_095, 12), (4_096, 13)] {
        let (names, between) = counts(&directory(count), count);
        assert_eq!(names.iter().chain(&between).max(), Some(&digits), "{count}");
        assert_eq!((names.last(), between.last()), (Some(&digits), Some(&digits)), "{count}");
        assert_eq!(names[(count - 1) / 2], 1, "{count}");
    }
    // The left side of 4,096 names is one of 2,047, which has 11 digits.
    assert_eq!(lookup(&directory(4_096), 0, name(0)), found(0, 1, 12));
}

/// The search in the words of the request, over the names of a directory whose first entry is
/// `first`.
fn halved(entries: &[Entry], first: u64, name: &[u8]) -> Result<FoundName, NameRefusal> {
    let (mut first, mut left, mut compared) = (first, entries, 0);
    while !left.is_empty() {
        let middle = (left.len() - 1) / 2;
        compared += 1;
        match name.cmp(left[middle].name) {
            Ordering::Equal => return found(first + middle as u64, left[middle].node, compared),
            Ordering::Less => left = &left[..middle],
            Ordering::Greater => {
                left = &left[middle + 1..];
                first += middle as u64 + 1;
            }
        }
    }
    refused(Errno::ENOENT, compared)
}

fn plain(table: &Table, number: u64, name: &[u8]) -> Result<FoundName, NameRefusal> {
    let entries_of = |node| match node {
        Node::Directory { entries, .. } => Some(entries),
        _ => None,
    };
    let entries = entries_of(table.node(number).ok_or(Errno::EBADF)?).ok_or(Errno::ENOTDIR)?;
    // Behind those of the directories before it.
    let before = table.nodes().take(number as usize).filter_map(|(_, node)| entries_of(node));
    let first = before.map(|entries| entries.len() as u64).sum();
    halved(&entries.collect::<Vec<_>>(), first, name)
}

/// A name of the bench tree's or one like it.
fn some_name(dice: &mut Dice) -> Vec<u8> {
    let names = ["lab", "cal", "pool", "abs", "fd", "loop", "t", "tare", "up", "run"];
    let mut name = names[dice.below(names.len())].as_bytes().to_vec();
    match dice.below(4) {
        0 => name.truncate(dice.below(4)),
        1 => name.push(dice.below(256) as u8),
        _ => {}
    }
    name
}

/// Whatever the bytes are, there is an answer, and it is that of a plain search.
#[test]
fn any_name_is_answered_as_by_a_plain_search() {
    let mut dice = Dice(1);
    let mut names_found = 0;
    for _ in 0..20_000 {
        let mut image = IMAGE.to_vec();
        for _ in 0..dice.below(3) {
            image[dice.below(IMAGE.len())] = dice.below(256) as u8;
        }
        let (node, name) = (dice.below(14) as u64, some_name(&mut dice));
        let name = name.as_slice();
        let answer = lookup(&image, node, name);
        match Table::new(&image) {
            Ok(table) => {
                names_found += u64::from(answer.is_ok());
                assert_eq!(answer, plain(&table, node, name), "{} in {node}", name.escape_ascii());
                assert_eq!(answer, table.lookup(node, name));
            }
            Err(broken) => assert_eq!(answer, Err(broken.into())),
        }
    }
    assert!(names_found > 100, "{names_found}");
}
