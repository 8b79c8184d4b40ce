//! Images built from their parts. What is expected was worked out by hand.

use super::descriptors::Dice;
use crate::bench_tree::IMAGE;
use crate::*;
use data::worked::{self, Asked};

fn node(kind: u8, parent: u8, first: u8, count: u8) -> [u8; 12] {
    [kind, 0, parent, 0, first, 0, 0, 0, count, 0, 0, 0]
}

fn entry(offset: u8, length: u8, node: u8) -> [u8; 8] {
    [offset, 0, 0, 0, length, 0, node, 0]
}

const TOP: [u8; 8] = [0; 8];

/// What is refused, or the image; the same by both functions, whatever the buffer held.
fn built(parts: Parts) -> Result<Vec<u8>, BuildError> {
    let mut buffer = [0xff; 70_000];
    let answer = parts.build_into(&mut buffer).map(|table| table.image().to_vec());
    let untouched = answer.as_ref().map_or(0, Vec::len);
    assert!(buffer[untouched..].iter().all(|byte| *byte == 0xff));
    #[cfg(feature = "std")]
    assert_eq!(parts.build(), answer);
    if let Ok(image) = &answer {
        assert_eq!(check(image), Ok(()));
        let too_short = parts.build_into(&mut buffer[..image.len() - 1]).unwrap_err();
        assert_eq!(too_short, BuildError::Short { needed: image.len() });
    }
    answer
}

fn broken(rule: u64, record: u64) -> Result<Vec<u8>, BuildError> {
    Err(BuildError::Broken(Broken { rule, record }))
}

/// A directory that names a file "a" and a link "b", whose body is "a".
#[test]
fn one_tree_has_one_image() {
    let mut image = b"TOC1\x03\0\x01\0\x02\0\0\0\x03\0\0\0\x53\0\0\0".to_vec();
    // The body stands behind both names.
    image.extend([node(1, 0, 0, 2), node(2, 0, 0, 0), node(3, 0, 2, 1)].concat());
    image.extend(TOP);
    image.extend([entry(0, 1, 1), entry(1, 1, 2)].concat());
    image.extend(b"aba");
    assert_eq!(image.len(), 0x53);
    // A text, and where in it stand both names and the body.
    for (text, a, b, body) in [
        ("aba", 0, 1, 2),
        ("ab", 0, 1, 0),
        ("ba", 1, 0, 1),
        ("aab", 1, 2, 0),
        ("/\0b..a/", 5, 2, 5),
    ] {
        let parts = Parts {
            nodes: &[node(1, 0, 0, 2), node(2, 0, 0, 0), node(3, 0, body, 1)].concat(),
            mounts: &TOP,
            entries: &[entry(a, 1, 1), entry(b, 1, 2)].concat(),
            text: text.as_bytes(),
        };
        assert_eq!(built(parts), Ok(image.clone()), "{text}");
    }
}

#[test]
fn what_is_built_is_a_table() {
    let mut image = IMAGE.to_vec();
    let table = Table::new(IMAGE).unwrap();
    let again = table.parts().build_into(&mut image).unwrap();
    assert_eq!(again.image().len(), IMAGE.len());
    let lab = Handle::new(0, 1);
    assert_eq!(
        again.resolve(lab, "cal/abs", OpenHow::new()),
        table.resolve(lab, "cal/abs", OpenHow::new())
    );
    assert_eq!(again.descriptors().open(0, "lab", OpenHow::new()).unwrap().descriptor, 1);
    assert_eq!(
        format!("{:?}", again.parts()),
        "Parts { nodes: 144, mounts: 16, entries: 80, text: 56 }"
    );
}

/// The bench tree with bytes of its records or its text changed, each by part and place.
#[test]
fn a_tree_is_refused_by_rule_and_record() {
    let parts = Table::new(IMAGE).unwrap().parts();
    let changed = |part: usize, at: usize, byte: u8| {
        let Parts { nodes, mounts, entries, text } = parts;
        let mut bytes = [nodes, mounts, entries, text].map(<[u8]>::to_vec);
        bytes[part][at] = byte;
        let [nodes, mounts, entries, text] = &bytes;
        built(Parts { nodes, mounts, entries, text })
    };
    let (node, entry) = (|n: usize| 12 * n, |e: usize| 8 * e);
    assert_eq!(changed(0, node(3), 9), broken(4, 3));
    // A directory's first is looked at, not set right.
    assert_eq!(changed(0, node(2) + 4, 4), broken(4, 2));
    assert_eq!(changed(0, node(8) + 8, 2), broken(4, 12));
    // Outside of the text: the body of "t", the name "run".
    assert_eq!(changed(0, node(11) + 4, 52), broken(4, 11));
    assert_eq!(changed(2, entry(9), 54), broken(5, 9));
    assert_eq!(changed(2, entry(5) + 6, 12), broken(5, 5));
    assert_eq!(changed(1, 8, 9), broken(6, 1));
    assert_eq!(changed(0, node(10) + 4, 2), broken(7, 10));
}

#[test]
fn records_are_counted_whole() {
    let parts = Table::new(IMAGE).unwrap().parts();
    let Parts { nodes, mounts, entries, .. } = parts;
    for cut in [
        Parts { nodes: &nodes[..143], ..parts },
        Parts { mounts: &mounts[..9], ..parts },
        Parts { entries: &entries[..79], ..parts },
        Parts { nodes: &[nodes, &[0]].concat(), ..parts },
        Parts { nodes: b"", ..parts },
        Parts { mounts: b"", ..parts },
        Parts { mounts: &[0; 8 * 257], ..parts },
        Parts { nodes: &[0; 12 * 4_097], ..parts },
        Parts { entries: &[0; 8 * 4_097], ..parts },
        Parts::default(),
    ] {
        assert_eq!(built(cut), broken(3, 0), "{cut:?}");
    }
    // 65,536 mounts are no count of 0, but 8 bytes each.
    assert_eq!(built(Parts { mounts: &[0; 8 << 16], ..parts }), broken(1, 0));
    assert_eq!(
        built(Parts { nodes: &nodes[..143], ..parts }).unwrap_err().to_string(),
        "EUCLEAN (117); rule 3 broken: too many or too few records, or one cut short"
    );
}

/// Rule 1 goes by the lengths that the records give, inside the text or not, and comes first.
#[test]
fn the_length_is_the_one_that_would_be_written() {
    let (directory, file) = (node(1, 0, 0, 1), node(2, 0, 0, 0));
    let with_body = |count: u32| {
        let mut link = node(3, 0, 0, 0);
        link[8..].copy_from_slice(&count.to_le_bytes());
        let nodes = [directory, file, link].concat();
        let parts = Parts { nodes: &nodes, mounts: &TOP, entries: &entry(0, 1, 1), text: b"a" };
        built(parts)
    };
    // 20 + 3 * 12 + 8 + 8 + 1 bytes besides the body.
    assert_eq!(with_body(65_536 - 73), broken(4, 2));
    assert_eq!(with_body(65_536 - 72), broken(1, 0));
    assert_eq!(with_body(u32::MAX), broken(1, 0));
    assert_eq!(with_body(1).unwrap().len(), 74);
    let error = with_body(u32::MAX).unwrap_err().to_string();
    assert_eq!(error, "EUCLEAN (117); rule 1 broken: the image is not 20 to 65,536 bytes long");

    // 16 names of 4,000 bytes are too long each, but not together.
    let mut long = entry(0, 0, 1);
    long[4..6].copy_from_slice(&4_000_u16.to_le_bytes());
    for (names, answer) in [(16, broken(4, 0)), (17, broken(1, 0))] {
        let entries = &long.repeat(names);
        assert_eq!(built(Parts { nodes: &[0; 12], mounts: &TOP, entries, text: b"" }), answer);
    }
}

#[test]
fn the_list_of_worked_cases_has_these_answers() {
    let list = format!("{}/../../{}", env!("CARGO_MANIFEST_DIR"), worked::LIST);
    let mut builds = 0;
    for case in worked::read_file(&list).unwrap() {
        let Asked::Build(build) = &case.asked else { continue };
        builds += 1;
        let worked::Build { nodes, mounts, entries, text, room, written } = build;
        let mut buffer = vec![0xff; *room as usize];
        let answer = Parts { nodes, mounts, entries, text }.build_into(&mut buffer);
        let numbers = match answer {
            Ok(table) => [0, 0, 0, table.image().len() as u64],
            Err(BuildError::Broken(Broken { rule, record })) => [117, rule, record, 0],
            Err(BuildError::Short { needed }) => [34, 0, 0, needed as u64],
            Err(BuildError::Other(errno)) => [errno.number(), 0, 0, 0],
        };
        assert_eq!(case.expected, numbers, "{}: {case}", case.name);
        let (image, rest) = buffer.split_at(written.len());
        let is_right = image == written && rest.iter().all(|byte| *byte == 0xff);
        assert!(is_right, "{}: {case}", case.name);
    }
    assert!(builds > 0, "the list has no builds");
}

/// The tree of a table in words that say nothing of its text's layout.
fn told(table: Table) -> String {
    format!("{:?} {:?}", table.nodes(), table.mounts())
}

/// The parts of any image whose header is right are refused as the image is, unless rule 1 comes
/// first; else the same tree is read back, and its own parts are written to the same bytes.
#[test]
fn any_parts_are_answered() {
    let mut dice = Dice(1);
    let (mut accepted, mut buffer) = (0, [0; 2_000]);
    for _ in 0..20_000 {
        let mut image = IMAGE.to_vec();
        for _ in 0..dice.below(3) {
            image[20 + dice.below(IMAGE.len() - 20)] = dice.below(256) as u8;
        }
        let parts = records::Records::of(&image).parts();
        let answer = parts.build_into(&mut buffer);
        match (Table::new(&image), answer) {
            (Ok(table), Ok(built)) => {
                accepted += 1;
                assert_eq!(told(built), told(table), "{}", hex(&image));
                let mut again = vec![0; built.image().len()];
                assert_eq!(built.parts().build_into(&mut again).unwrap().image(), built.image());
            }
            (Err(broken), Err(BuildError::Broken(built))) => {
                assert!(built == broken || built.rule == 1, "{built}: {}", hex(&image));
            }
            (table, answer) => panic!("{table:?}, {answer:?}: {}", hex(&image)),
        }
    }
    assert!(accepted > 1_000, "{accepted}");
}

fn hex(bytes: &[u8]) -> String {
    bytes.iter().map(|byte| format!("{byte:02x}")).collect()
}
