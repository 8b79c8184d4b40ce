//! Parts of tables: what can be reached from a handle, and whether two images have it in common.

mod common;

use common::{answer, answer_to, error, image, program, Named};
use std::io::{BufRead, BufReader};
use std::process::Stdio;
use ventolaire::bench_tree::IMAGE;
use ventolaire::{Manifest, Parts, Table};

fn part(image: &Named, arguments: &[&str]) -> (i32, String) {
    answer(["part", image.path()].iter().chain(arguments))
}

/// A byte of the bench tree's image changed.
fn changed(at: usize, byte: u8) -> Named {
    let mut image = IMAGE.to_vec();
    image[at] = byte;
    Named::file(&image)
}

const NODES: usize = 20;
const MOUNTS: usize = NODES + 12 * 12;
const TEXT: usize = MOUNTS + 8 * 2 + 8 * 10;

/// The bench tree without "up", the last entry of cal.
fn without_up() -> Named {
    let parts = Table::new(IMAGE).unwrap().parts();
    let (mut nodes, mut entries) = (parts.nodes.to_vec(), parts.entries.to_vec());
    (nodes[12 * 2 + 8], nodes[12 * 7 + 4], nodes[12 * 8 + 4]) = (5, 8, 8);
    entries.drain(8 * 8..8 * 9);
    let parts = Parts { nodes: &nodes, entries: &entries, ..parts };
    Named::file(&parts.build().unwrap())
}

#[test]
fn a_place_has_a_line() {
    let lines = "     0:1  directory      .
     0:2  directory      cal
     0:5  symbolic link  cal/abs -> /lab/cal/tare
    0:10  magic link     cal/fd => 0:3
     0:6  symbolic link  cal/loop -> loop
    0:11  symbolic link  cal/t -> tare/
     0:3  file           cal/tare
     0:4  symbolic link  cal/up -> ../..
     0:7  directory      pool  [mount 1 covers 0:7]
     1:8  directory      pool
     1:9  file           pool/run
";
    let image = Named::file(IMAGE);
    assert_eq!(part(&image, &["--handle", "0:1"]), (0, lines.into()));
    assert_eq!(part(&image, &["--handle=(0,1)"]), (0, lines.into()));
    assert_eq!(answer_to(IMAGE, ["part", "-", "--handle", "0:1"]), (0, lines.into()));
    let pool = "     1:8  directory      .\n     1:9  file           run\n";
    assert_eq!(part(&image, &["--handle", "1:8"]), (0, pool.into()));
}

/// That of mount 0, which need not be node 0.
#[test]
fn the_handle_is_the_root() {
    let (status, lines) = part(&Named::file(IMAGE), &[]);
    assert_eq!((status, lines.lines().count()), (0, 12));
    assert!(lines.starts_with("     0:0  directory      .\n     0:1  directory      lab\n"));
    let mut bytes = IMAGE.to_vec();
    (bytes[MOUNTS], bytes[MOUNTS + 4]) = (1, 1);
    let image = Named::file(&bytes);
    assert_eq!(part(&image, &[]), part(&image, &["--handle", "0:1"]));
}

#[test]
fn json_has_an_object_for_each_place() {
    let lines = r#"{"place":{"mount":0,"node":1},"kind":"directory","path":"."}
{"place":{"mount":0,"node":2},"kind":"directory","path":"cal"}
{"place":{"mount":0,"node":5},"kind":"link","path":"cal/abs","body":"/lab/cal/tare"}
{"place":{"mount":0,"node":10},"kind":"magic_link","path":"cal/fd","target":{"mount":0,"node":3}}
{"place":{"mount":0,"node":6},"kind":"link","path":"cal/loop","body":"loop"}
{"place":{"mount":0,"node":11},"kind":"link","path":"cal/t","body":"tare/"}
{"place":{"mount":0,"node":3},"kind":"file","path":"cal/tare"}
{"place":{"mount":0,"node":4},"kind":"link","path":"cal/up","body":"../.."}
{"place":{"mount":0,"node":7},"kind":"directory","path":"pool","covered_by":1}
{"place":{"mount":1,"node":8},"kind":"directory","path":"pool"}
{"place":{"mount":1,"node":9},"kind":"file","path":"pool/run"}
"#;
    assert_eq!(part(&Named::file(IMAGE), &["--handle", "0:1", "--json"]), (0, lines.into()));
}

#[test]
fn a_bad_handle_is_refused() {
    let image = Named::file(IMAGE);
    for (handle, error, errno) in [
        ("2:0", "EBADF", 9),
        ("0:12", "EBADF", 9),
        ("18446744073709551615:0", "EBADF", 9),
        ("0:3", "ENOTDIR", 20),
        ("0:10", "ENOTDIR", 20),
        ("1:0", "EBADF", 9),
        ("0:7", "EBADF", 9),
    ] {
        let line = format!("{error} ({errno}), the handle {handle} is refused\n");
        assert_eq!(part(&image, &["--handle", handle]), (1, line.clone()));
        let common = ["--handle", handle, "--common", image.path()];
        assert_eq!(part(&image, &common), (1, line));
        let (status, json) = part(&image, &["--handle", handle, "--json"]);
        let start = format!(r#"{{"error":"{error}","errno":{errno},"handle":{{"#);
        assert!(status == 1 && json.starts_with(&start), "{json}");
        let (_, resolved) = image.resolve(&[".", "--handle", handle]);
        assert!(resolved.starts_with(&format!("{error} ({errno});")), "{resolved}");
    }
    let json = r#"{"error":"EBADF","errno":9,"handle":{"mount":0,"node":7}}"#;
    assert_eq!(part(&image, &["--handle", "0:7", "--json"]), (1, format!("{json}\n")));
    let json = format!("{{\"in_common\":false,{}\n", &json[1..]);
    let common = ["--handle", "0:7", "--json", "--common", image.path()];
    assert_eq!(part(&image, &common), (1, json));
}

#[test]
fn a_bad_image_is_refused() {
    let (good, bad) = (Named::file(IMAGE), changed(NODES + 12 * 3, 9));
    let why = "rule 4 broken by node 3: its kind is 9, not 1 to 4 (RULES 4.4a)";
    let broken =
        r#""broken":{"rule":4,"clause":"4.4a","node":3,"reason":"its kind is 9, not 1 to 4"}"#;
    let euclean = r#""error":"EUCLEAN","errno":117"#;
    let line = format!("EUCLEAN (117), {why}\n");
    assert_eq!(part(&bad, &[]), (1, line.clone()));
    assert_eq!(part(&bad, &["--common", good.path()]), (1, line));
    assert_eq!(part(&bad, &["--json"]), (1, format!("{{{euclean},{broken}}}\n")));
    let line = format!("not in common: the other table is refused: {why}\n");
    assert_eq!(part(&good, &["--common", bad.path()]), (1, line));
    let json = format!(r#"{{"in_common":false,"reason":"the other table is refused",{broken}}}"#);
    assert_eq!(part(&good, &["--common", bad.path(), "--json"]), (1, json + "\n"));
    let json = format!("{{\"in_common\":false,{euclean},{broken}}}\n");
    assert_eq!(part(&bad, &["--common", good.path(), "--json"]), (1, json));
}

#[test]
fn a_file_that_cannot_be_read_is_an_error() {
    let good = Named::file(IMAGE);
    let no = "cannot read /no: No such file or directory (os error 2)";
    assert_eq!(error(["part", "/no"]), no);
    assert_eq!(error(["part", good.path(), "--common", "/no"]), no);
    assert_eq!(error(["part", "/no", "--common", good.path()]), no);
}

/// Where texts lie, a magic link's target, and a name outside.
#[test]
fn what_lies_outside_makes_no_difference() {
    let image = Named::file(IMAGE);
    let ordered = Named::new();
    assert_eq!(answer(["canonical", image.path(), "-o", ordered.path()]).0, 0);
    let all = ["--common", ordered.path()];
    assert_eq!(part(&image, &all), (0, "in common: 12 places\n".into()));

    let target = changed(NODES + 12 * 10 + 8, 9);
    let lab = ["--handle", "0:1", "--common", target.path()];
    assert_eq!(part(&image, &lab), (0, "in common: 11 places\n".into()));
    let json = "{\"in_common\":true,\"places\":11}\n";
    assert_eq!(part(&image, &[&lab[..], &["--json"]].concat()), (0, json.into()));

    // The first letter of "lab", which is its name in the root alone.
    let name = changed(TEXT, b'L');
    let line = "not in common: 0:0, the handle: it has the name lab, and in its place Lab in the \
                other table\n";
    assert_eq!(part(&image, &["--common", name.path()]), (1, line.into()));
    let line = "in common: 2 places\n";
    assert_eq!(part(&image, &["--handle", "1:8", "--common", name.path()]), (0, line.into()));
}

#[test]
fn the_first_difference_is_told() {
    let image = Named::file(IMAGE);
    let lab = |other: &Named| part(&image, &["--common", other.path(), "--handle", "0:1"]);
    let line = "not in common: 0:2, cal: it has 6 entries, and 5 in the other table\n";
    assert_eq!(lab(&without_up()), (1, line.into()));
    let page = include_str!("../../docs/man/ventolaire.1");
    assert!(page.contains(line.trim_end()));
    // An other that is on standard input.
    let up = std::fs::read(&without_up().0).unwrap();
    let arguments = ["part", image.path(), "--handle", "0:1", "--common", "-"];
    assert_eq!(answer_to(&up, arguments), (1, line.into()));

    let json = r#"{"in_common":false,"place":{"mount":0,"node":2},"path":"cal","reason":"it has 6 entries, and 5 in the other table"}"#;
    let arguments = ["--handle", "0:1", "--json", "--common"];
    let without = without_up();
    let told = part(&image, &[&arguments[..], &[without.path()]].concat());
    assert_eq!(told, (1, format!("{json}\n")));
}

/// Mount 1 is on lab in the other table, and so covers the handle.
#[test]
fn a_handle_that_the_other_refuses_is_told() {
    let (image, other) = (Named::file(IMAGE), changed(MOUNTS + 8 + 4, 1));
    let arguments = ["--handle", "0:1", "--common", other.path()];
    let line = "not in common: 0:1, the handle: the other table refuses it with EBADF (9)\n";
    assert_eq!(part(&image, &arguments), (1, line.into()));
    let json = r#"{"in_common":false,"place":{"mount":0,"node":1},"path":".","reason":"the other table refuses it with EBADF (9)","error":"EBADF","errno":9}"#;
    let told = part(&image, &[&arguments[..], &["--json"]].concat());
    assert_eq!(told, (1, format!("{json}\n")));
}

/// Names that would act on a terminal or on a reader's eye, or that look like a line's end.
#[test]
fn what_cannot_be_printed_is_escaped() {
    let names = [&b"\x1b[2J"[..], b"a  [mount 1 covers 0:1]", b"b\nc", b"\xff"];
    let [one, two] = ["\u{202e}", "x y"].map(|body| Named::file(&image(&names, body.as_bytes())));
    // One link has all these names: the first is its path.
    let lines = "     0:0  directory      .\n     0:1  symbolic link  \\x1b[2J -> \\u202e\n";
    assert_eq!(part(&one, &[]), (0, lines.into()));
    let line = "not in common: 0:1, \\x1b[2J: its body is \\u202e, and 'x y' in the other table\n";
    assert_eq!(part(&one, &["--common", two.path()]), (1, line.into()));
    let odd = Named::file(&image(&[b"\xff\n"], b"x"));
    let (_, json) = part(&odd, &["--json"]);
    let path = "\"path\":\"\u{fffd}\\u000a\",\"path_hex\":\"ff0a\"";
    assert!(json.contains(path), "{json}");
}

/// A chain of directories that each mount shows once more, at the end of the one before: paths of
/// hundreds of thousands of names. Whoever has read enough need not wait for all.
#[test]
fn large_parts_are_printed_place_by_place() {
    let mut manifest = Manifest::new();
    let deep = |depth: usize| "/d".repeat(depth);
    (1..=2_000).for_each(|depth| _ = manifest.directory(deep(depth)));
    manifest.mount_as("m1", "/d", deep(2_000));
    for mount in 2..256 {
        let point = (deep(2_000), format!("m{}", mount - 1));
        manifest.mount_as(format!("m{mount}"), "/d", point);
    }
    let image = Named::file(&manifest.build().unwrap());
    let common = part(&image, &["--common", image.path()]);
    assert_eq!(common, (0, format!("in common: {} places\n", 1 + 256 * 2_000)));

    let mut program = program();
    let program = program.args(["part", image.path()]).stdout(Stdio::piped());
    let mut child = program.spawn().unwrap();
    let mut lines = BufReader::new(child.stdout.take().unwrap()).lines();
    assert_eq!(lines.nth(1).unwrap().unwrap(), "     0:1  directory      d");
    drop(lines);
    assert_eq!(child.wait().unwrap().code(), Some(0));
}
