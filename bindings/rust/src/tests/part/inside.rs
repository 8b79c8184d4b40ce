//! Tables that differ inside of a part: each by one thing, which is told.

use super::{build, changed, difference, HANDLE};
use crate::*;

/// The lines changed, and what is said of the first place that differs.
const ROWS: &[(&[(&str, &str)], &str)] = &[
    (&[("", "mount disk: /lab")], "(0,2), the handle: the other table refuses it with EBADF (9)"),
    (
        &[("file  /lab/cal/tare ", "link  /lab/cal/tare x ")],
        "(0,5), cal/tare: it is a file, and a symbolic link in the other table",
    ),
    (
        &[("mount disk: /lab/pool", "")],
        "(0,7), pool: mount 1 covers it, and no mount in the other table",
    ),
    (
        &[("", "mount disk: /lab/cal")],
        "(0,3), cal: no mount covers it, and mount 1 in the other table",
    ),
    (
        &[("", "mount disk: /apart")],
        "(0,7), pool: mount 1 covers it, and mount 2 in the other table",
    ),
    (
        &[("mount disk: ", "mount disk:/sub ")],
        "(0,7), pool: mount 1, which covers it, has the root 12, and 13 in the other table",
    ),
    (
        &[("", "hard /lab/cal/y /lab/cal/tare")],
        "(0,3), cal: it has 4 entries, and 5 in the other table",
    ),
    (
        &[("hard  /lab/cal/x /lab/cal/tare", "")],
        "(0,3), cal: it has 4 entries, and 3 in the other table",
    ),
    (
        &[("/lab/cal/up ", "/lab/cal/uq ")],
        "(0,3), cal: it has the name up, and in its place uq in the other table",
    ),
    (
        &[("/lab/cal/x /lab/cal/tare", "/lab/cal/x /lab/cal/up")],
        "(0,3), cal: x in it is node 5, and node 6 in the other table",
    ),
    (&[("../..", "../../")], "(0,6), cal/up: its body is ../.., and ../../ in the other table"),
    // In a mount.
    (
        &[("file  disk:/sub/run ", "link  disk:/sub/run x ")],
        "(1,14), pool/sub/run: it is a file, and a symbolic link in the other table",
    ),
    // Of two, the first in the order of the places; at one place, the mount before what is in it.
    (
        &[("mount disk: ", "mount disk:/sub "), ("../..", "..")],
        "(0,6), cal/up: its body is ../.., and .. in the other table",
    ),
    (
        &[("hard  /lab/cal/x /lab/cal/tare", "mount disk: /lab/cal")],
        "(0,3), cal: no mount covers it, and mount 1 in the other table",
    ),
];

#[test]
fn what_differs_is_told() {
    let lab = changed(&[]);
    let part = Table::new(&lab).unwrap().part(HANDLE).unwrap();
    for (lines, sentence) in ROWS {
        let other = changed(lines);
        let told = difference(&lab, &other, HANDLE).expect_err(sentence);
        assert_eq!(told.to_string(), *sentence, "{lines:?}");
        // The path is that of the place.
        let there = part.places().find(|reachable| reachable.place == told.place);
        assert_eq!(there.map(|reachable| reachable.path()), Some(told.path));
        // Nor are they the same the other way around.
        if !matches!(told.what, Difference::Handle(_)) {
            assert!(difference(&other, &lab, HANDLE).is_err(), "{lines:?}");
        }
    }
}

#[test]
fn a_difference_has_its_numbers_and_texts() {
    let what = |row: usize| {
        let told = difference(&changed(&[]), &changed(ROWS[row].0), HANDLE);
        told.unwrap_err().what
    };
    let text = |text: &str| text.as_bytes().to_vec();
    assert_eq!(what(0), Difference::Handle(Errno::EBADF));
    assert_eq!(what(1), Difference::Kind { here: Kind::File, there: Kind::Link });
    assert_eq!(what(2), Difference::Mount { here: Some(1), there: None });
    assert_eq!(what(4), Difference::Mount { here: Some(1), there: Some(2) });
    assert_eq!(what(5), Difference::Root { mount: 1, here: 12, there: 13 });
    assert_eq!(what(6), Difference::Count { here: 4, there: 5 });
    assert_eq!(what(8), Difference::Name { here: text("up"), there: text("uq") });
    assert_eq!(what(9), Difference::Node { name: text("x"), here: 5, there: 6 });
    assert_eq!(what(10), Difference::Body { here: text("../.."), there: text("../../") });
}

/// All that RULES 7.4 refuses.
#[test]
fn the_handle_has_to_be_good_there() {
    let lab = changed(&[]);
    for (other, errno) in [
        ("", Errno::EBADF),
        ("file /a\nfile /b", Errno::ENOTDIR),
        ("dir /a\ndir /b\nroot /a", Errno::EBADF),
        ("dir /a\ndir /b\nmount /a /b", Errno::EBADF),
    ] {
        let told = difference(&lab, &build(other), HANDLE).unwrap_err();
        assert_eq!((told.what, &told.path[..]), (Difference::Handle(errno), &b"."[..]), "{other}");
        assert_eq!(told.place, Place { mount: 0, node: 2 });
    }
    // Mount 1, of which there is none.
    let told = difference(&lab, &build("dir /a"), Handle::new(1, 12)).unwrap_err();
    assert_eq!(told.what, Difference::Handle(Errno::EBADF));
}

#[test]
fn sentences_are_plain_and_escaped() {
    let told = |one: &str, two: &str| {
        let told = difference(&build(one), &build(two), Handle::new(0, 0)).unwrap_err();
        let error: Box<dyn std::error::Error> = told.into();
        error.to_string()
    };
    assert_eq!(
        told(r"link '/a b\n' x", r"link '/a b\n' '\xff y'"),
        r"(0,1), 'a b\n': its body is x, and '\xff y' in the other table"
    );
    assert_eq!(
        told(r"file '/the handle'", r"file '/\u202e'"),
        r"(0,0), the handle: it has the name 'the handle', and in its place \u202e in the other table"
    );
    assert_eq!(
        told("dir /a\nfile /a/b", "dir /a\nhard /a/b /c\nfile /c"),
        "(0,0), the handle: it has 1 entry, and 2 in the other table"
    );
    assert_eq!(
        told("dir '/the handle'", "file '/the handle'"),
        "(0,1), 'the handle': it is a directory, and a file in the other table"
    );
    assert_eq!(
        told("magic /a /", "file /a"),
        "(0,1), a: it is a magic link, and a file in the other table"
    );
}
