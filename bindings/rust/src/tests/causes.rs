//! Why tables are refused, in words.

use crate::bench_tree::IMAGE;
use crate::*;

const NODES: usize = 20;
const MOUNTS: usize = NODES + 12 * 12;
const ENTRIES: usize = MOUNTS + 8 * 2;
const TEXT: usize = ENTRIES + 8 * 10;

/// The bench tree with bytes changed.
fn changed(changes: &[(usize, u8)]) -> Vec<u8> {
    let mut image = IMAGE.to_vec();
    changes.iter().for_each(|&(at, byte)| image[at] = byte);
    image
}

fn cause(image: &[u8]) -> String {
    let cause = check(image).unwrap_err().cause(image);
    let record = cause.record.map_or(String::from("-"), |record| record.to_string());
    format!("{}; {record}; {cause}", cause.clause)
}

#[test]
fn headers_are_explained() {
    assert_eq!(cause(b""), "4.1; -; the image has 0 bytes, not 20 to 65,536");
    assert_eq!(cause(&[0; 65_537]), "4.1; -; the image has over 65,536 bytes");
    let long = [IMAGE, b"!"].concat();
    assert_eq!(cause(&long), "4.3; -; the image has 317 bytes, and the header's total is 316");
    for (change, text) in [
        ((3, b'2'), "4.2; -; its first bytes are not the signature TOC1"),
        ((11, 1), "4.2; -; the header's zero field is 256"),
        ((4, 0), "4.3; -; the header counts 0 nodes, not 1 to 4,096"),
        ((7, 1), "4.3; -; the header counts 258 mounts, not 1 to 256"),
        ((9, 16), "4.3; -; the header counts 4106 entries, over 4,096"),
        ((12, 57), "4.3; -; the header's total is 316, and what it counts has 317 bytes"),
    ] {
        assert_eq!(cause(&changed(&[change])), text);
    }
}

#[test]
fn nodes_are_explained() {
    for (node, field, byte, text) in [
        (3, 0, 9, "4.4a; node 3; its kind is 9, not 1 to 4"),
        (3, 0, 0, "4.4a; node 3; its kind is 0, not 1 to 4"),
        (1, 2, 2, "4.4b; node 1; its parent is node 2, above its own number"),
        (7, 2, 3, "4.4b; node 7; its parent is node 3, no directory"),
        (2, 4, 4, "4.4c; node 2; its first entry is 4, and the directories before it hold 3"),
        (3, 2, 1, "4.4d; node 3; its parent is 1, not 0, and it is no directory"),
        (10, 3, 1, "4.4d; node 10; its parent is 256, not 0, and it is no directory"),
        (9, 8, 7, "4.4e; node 9; its first is 0 and its count 7, not 0 and 0 as a file's are"),
        (4, 8, 0, "4.4f; node 4; its body has 0 bytes, not 1 to 4,095"),
        (4, 9, 16, "4.4f; node 4; its body has 4101 bytes, not 1 to 4,095"),
        (4, 4, 52, "4.4f; node 4; its body ends at byte 57 of the text, which has 56"),
        (8, 8, 2, "4.4h; -; the directories' counts sum to 11, and there are 10 entries"),
    ] {
        assert_eq!(cause(&changed(&[(NODES + 12 * node + field, byte)])), text);
    }
    let zero = changed(&[(TEXT + 12, 0)]);
    assert_eq!(cause(&zero), "4.4f; node 4; its body has a zero byte, at 2");
}

#[test]
fn entries_are_explained() {
    for (entry, field, byte, text) in [
        (5, 4, 0, "4.5a; entry 5; its name has 0 bytes, not 1 to 255"),
        (5, 5, 1, "4.5a; entry 5; its name has 260 bytes, not 1 to 255"),
        (5, 0, 53, "4.5a; entry 5; its name ends at byte 57 of the text, which has 56"),
        (5, 0, 17, "4.5b; entry 5; its name has a slash, at byte 0"),
        (5, 6, 12, "4.5d; entry 5; its node is 12, and there are 12 nodes"),
        (9, 6, 2, "4.5f; entry 9; it names directory 2, whose parent is node 1, in node 8"),
        (2, 6, 8, "4.5f; entry 2; it names node 8, the top of a tree"),
    ] {
        assert_eq!(cause(&changed(&[(ENTRIES + 8 * entry + field, byte)])), text);
    }
    // "abs" becomes "." and "..", and "fd" a zero byte.
    let dot = changed(&[(ENTRIES + 8 * 3, 10), (ENTRIES + 8 * 3 + 4, 1)]);
    assert_eq!(cause(&dot), "4.5c; entry 3; its name is \".\"");
    let dots = changed(&[(ENTRIES + 8 * 3, 10), (ENTRIES + 8 * 3 + 4, 2)]);
    assert_eq!(cause(&dots), "4.5c; entry 3; its name is \"..\"");
    let zero = changed(&[(TEXT + 49, 0)]);
    assert_eq!(cause(&zero), "4.5b; entry 4; its name has a zero byte, at 1");
    let low = changed(&[(TEXT + 48, b'A')]);
    assert_eq!(
        cause(&low),
        "4.5e; entry 4; its name comes before that of entry 3 in its directory, node 2"
    );
    let same = changed(&[(ENTRIES + 8 * 4, 30), (ENTRIES + 8 * 4 + 4, 3)]);
    assert_eq!(
        cause(&same),
        "4.5e; entry 4; its name is that of entry 3 too, in the same directory, node 2"
    );
}

#[test]
fn mounts_are_explained() {
    for (mount, field, byte, text) in [
        (1, 0, 3, "4.6a; mount 1; its root is node 3, no directory"),
        (1, 0, 99, "4.6a; mount 1; its root is node 99, no directory"),
        (1, 7, 1, "4.6b; mount 1; its zero field is 256"),
        (0, 2, 1, "4.6c; mount 0; its parent is mount 1, not itself"),
        (0, 4, 1, "4.6c; mount 0; its point is node 1, not its root, node 0"),
        (1, 2, 1, "4.6d; mount 1; its parent is mount 1, not a lower one"),
        (1, 4, 3, "4.6e; mount 1; its point is node 3, no directory"),
        (1, 4, 0, "4.6e; mount 1; its point, node 0, is the root of mount 0, its parent"),
        (1, 4, 8, "4.6e; mount 1; its point, node 8, is not under node 0, the root of mount 0"),
    ] {
        assert_eq!(cause(&changed(&[(MOUNTS + 8 * mount + field, byte)])), text);
    }
    let mut twice = changed(&[(6, 3), (16, 68)]);
    let second: Vec<u8> = twice[MOUNTS + 8..ENTRIES].to_vec();
    twice.splice(ENTRIES..ENTRIES, second);
    let text = "4.6f; mount 2; mount 1 is on the same place: node 7 in mount 0";
    assert_eq!(cause(&twice), text);
}

#[test]
fn magic_links_are_explained() {
    for (field, byte, text) in [
        (4, 2, "4.7a; node 10; its target's mount is 2, and there are 2 mounts"),
        (8, 12, "4.7b; node 10; its target's node is 12, and there are 12 nodes"),
        (8, 10, "4.7b; node 10; its target is node 10, itself a link"),
        (8, 8, "4.7c; node 10; its target, node 8, is not under node 0, the root of mount 0"),
    ] {
        assert_eq!(cause(&changed(&[(NODES + 12 * 10 + field, byte)])), text);
    }
}

/// Whether a refusal has a sentence of its own rule, and does not fall back on the
/// rule; and which.
fn clause(image: &[u8]) -> Option<&'static str> {
    let broken = check(image).err()?;
    let cause = broken.cause(image);
    assert!(cause.clause.starts_with(&format!("4.{}", broken.rule)), "{cause:?}");
    assert_ne!(cause.to_string(), broken.rule_text());
    assert_eq!(cause.record.is_some(), broken.rule > 3 && cause.clause != "4.4h");
    Some(cause.clause)
}

#[test]
fn any_refusal_is_explained() {
    let all = (0..IMAGE.len()).flat_map(|at| (0..=255).map(move |byte| (at, byte)));
    let clauses = all.filter_map(|change| clause(&changed(&[change])));
    let clauses: std::collections::BTreeSet<&str> = clauses.collect();
    // Of the 25 sentences all but the length's (4.1) and that of two mounts besides
    // mount 0 (4.6f), which no change of one byte breaks.
    assert_eq!(clauses.len(), 23, "{clauses:?}");

    let mut state = 1_u32;
    let mut random = |below: usize| {
        state = state.wrapping_mul(1_664_525).wrapping_add(1_013_904_223);
        (state >> 8) as usize % below
    };
    for _ in 0..50_000 {
        // Low bytes: most of them are somebody's number.
        let changes = [(); 3].map(|()| (20 + random(IMAGE.len() - 20), random(13) as u8));
        clause(&changed(&changes));
    }
}

/// Of an image that is not the one checked, the rule is told.
#[test]
fn other_images_are_no_trouble() {
    for rule in 0..=8 {
        for record in [0, 3, 12, 1 << 40, u64::MAX] {
            let broken = Broken { rule, record };
            assert_eq!(broken.cause(IMAGE).to_string(), broken.rule_text());
            for len in 0..IMAGE.len() {
                assert!(!broken.cause(&IMAGE[..len]).to_string().is_empty());
            }
        }
    }
}
