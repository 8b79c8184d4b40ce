//! The worked examples.

mod common;

use common::{answer, error, Named};
use std::fs;
use std::os::unix::fs::symlink;
use ventolaire::bench_tree::IMAGE;

#[test]
fn the_whole_table_is_answered() {
    let (status, text) = answer(["demo"]);
    assert_eq!(status, 0);
    assert!(text.ends_with("\n19 passed, 0 failed\n"), "{text}");
    assert_eq!(text.matches("expected").count(), 19);
    let call = "P12  cal/fd --handle 0:1 --flag O_NOFOLLOW,O_PATH --resolve RESOLVE_NO_MAGICLINKS";
    assert!(text.contains(call), "{text}");
}

#[test]
fn json_has_a_row_for_each() {
    let (status, json) = answer(["demo", "--json"]);
    assert_eq!((status, json.lines().count()), (0, 1));
    assert!(json.ends_with("],\"passed\":19,\"failed\":0}\n"), "{json}");
    assert_eq!(json.matches("\"right\":true").count(), 19);
    let row = concat!(
        r#"{"name":"P3","path":"pool/run","handle":{"mount":0,"node":1},"mark":false,"#,
        r#""flags":[],"resolve":["RESOLVE_NO_XDEV"],"#,
        r#""expected":{"found":false,"error":"EXDEV","errno":18,"components":1,"links":0},"#,
    );
    assert!(json.contains(row), "{json}");
    assert!(!json.contains("\"-\"") && !json.contains("255"));
}

#[test]
fn the_image_is_written_once() {
    let file = Named::new();
    let (status, text) = answer(["demo", file.path()]);
    assert_eq!(status, 0);
    assert!(text.starts_with(&format!("{}: the bench tree, 316 bytes\n\n", file.path())));
    assert_eq!(fs::read(&file.0).unwrap(), IMAGE);

    let there = format!("cannot write {}: File exists (os error 17)", file.path());
    assert_eq!(error(["demo", file.path()]), there);
    assert_eq!(error(["demo", file.path(), "--json"]), there);
}

#[test]
fn nothing_is_overwritten() {
    let file = Named::file(b"mine");
    error(["demo", file.path()]);
    assert_eq!(fs::read(&file.0).unwrap(), b"mine");

    // Nor what a link leads to, be it there or not.
    let target = Named::new();
    for to in [&file, &target] {
        let link = Named::new();
        symlink(&to.0, &link.0).unwrap();
        error(["demo", link.path()]);
    }
    assert_eq!(fs::read(&file.0).unwrap(), b"mine");
    assert!(!target.0.exists());
}
