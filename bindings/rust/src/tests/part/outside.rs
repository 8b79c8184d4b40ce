//! Tables that differ outside of a part alone: by everything that RULES 20.5 does not ask for.

use super::{build, changed, difference, HANDLE};
use crate::tests::manifests::generated::read;
use crate::*;

const PATHS: [&str; 12] = [
    ".",
    "..",
    "/",
    "cal/fd",
    "cal/up/cal",
    "cal/x",
    "cal/../pool/sub/run",
    "pool/hidden",
    "pool/..",
    "/pool/sub/../../cal",
    "cal/tare/x",
    "cal/up/../none",
];

/// That two images have a part in common, both ways, and answer confined calls alike.
fn in_common(what: &str, images: [&[u8]; 2], handle: Handle) {
    let [one, two] = images;
    assert_ne!(one, two, "{what}");
    assert_eq!(difference(one, two, handle), Ok(()), "{what}");
    assert_eq!(difference(two, one, handle), Ok(()), "{what}");
    let [one, two] = images.map(|image| Table::new(image).unwrap());
    for path in PATHS {
        for (handle, how) in [
            (handle, Resolve::BENEATH),
            (handle, Resolve::IN_ROOT),
            (handle.marked(), Resolve::empty()),
            (handle.marked(), Resolve::IN_ROOT | Resolve::NO_XDEV),
        ] {
            let answers = [one, two].map(|table| table.resolve(handle, path, how));
            assert_eq!(answers[0], answers[1], "{what}: {path} {how}");
        }
    }
}

/// What is changed, and by which lines: one thing each, and last all that go together.
const ROWS: &[(&str, &[(&str, &str)])] = &[
    ("the parent of a mount's root", &[("dir   disk: ", "dir   disk: in /other ")]),
    ("a magic link's target", &[("fd /other/run ", "fd /lab/cal/tare ")]),
    ("mount 0's root", &[("", "root /lab")]),
    ("how many nodes there are", &[("", "file spare:\nlink more: x")]),
    ("how many mounts there are", &[("", "mount /lab /other")]),
    ("how many entries there are", &[("", "hard /other/again /other/run")]),
    ("the numbers of entries", &[("", "hard /z /lab/cal/tare")]),
    ("where texts lie", &[("dir   /apart ", "dir   /a-longer-name ")]),
    ("names", &[("file  /other/run ", "file  /other/ran "), ("fd /other/run", "fd /other/ran")]),
    ("bodies", &[("/other/to /lab/cal ", "/other/to / ")]),
    ("kinds", &[("dir   /apart ", "link  /apart x ")]),
    ("what is hidden", &[("file  /lab/pool/hidden ", "link /lab/pool/seen x ")]),
    ("entries that are hidden", &[("", "hard /lab/pool/more /lab/cal/up")]),
    (
        "a mount on what is hidden",
        &[
            ("file  /lab/pool/hidden ", "dir /lab/pool/hidden "),
            ("", "mount /lab /lab/pool/hidden"),
        ],
    ),
    (
        "all at once",
        &[
            ("dir   disk: ", "dir   disk: in /other "),
            ("fd /other/run ", "fd /lab/cal/tare "),
            ("dir   /apart ", "link  /a-longer-name x "),
            ("", "root /lab"),
            ("", "file spare:\nhard /z /lab/cal/tare"),
            ("file  /lab/pool/hidden ", "dir /lab/pool/hidden "),
            ("", "mount /lab /lab/pool/hidden"),
        ],
    ),
];

#[test]
fn what_lies_outside_makes_no_difference() {
    let lab = changed(&[]);
    for (what, lines) in ROWS {
        in_common(what, [&lab, &changed(lines)], HANDLE);
    }
}

#[test]
fn the_handles_parent_makes_no_difference() {
    let [one, two, top] = ["dir h: in /b", "dir h: in /", "dir h: in /a"]
        .map(|line| build(&format!("dir /a\ndir /b\n{line}\nfile h:/run")));
    // In the third it has another number.
    in_common("the parent", [&one, &two], Handle::new(0, 3));
    assert!(difference(&one, &top, Handle::new(0, 3)).is_err());
}

/// A mount above the handle may cover what the handle is in.
#[test]
fn a_covered_directory_above_makes_no_difference() {
    let covered = changed(&[("", "mount disk: /lab")]);
    in_common("a mount above", [&changed(&[]), &covered], Handle::new(0, 3));
}

/// The same records with their texts elsewhere: in other order, shared, and with others between.
#[test]
fn where_texts_lie_makes_no_difference() {
    let lab = changed(&[]);
    let mut tree = read(&lab);
    // Names and bodies node by node, not the names first.
    in_common("in other order", [&lab, &tree.image()], HANDLE);
    assert!(tree.shared_image().len() < lab.len());
    in_common("shared", [&lab, &tree.shared_image()], HANDLE);
    tree.text = b"text of nobody\0".to_vec();
    in_common("behind others", [&lab, &tree.image()], HANDLE);
}

/// A table has all of its parts in common with itself.
#[test]
fn the_same_table_is_in_common() {
    let lab = changed(&[]);
    let table = Table::new(&lab).unwrap();
    for (node, _) in table.nodes() {
        for part in [0, 1].map(|mount| table.part(Handle::new(mount, node))).into_iter().flatten() {
            assert_eq!(part.in_common_with(&table), Ok(()), "{part:?}");
        }
    }
}
