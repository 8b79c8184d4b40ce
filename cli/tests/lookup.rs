//! Names looked up. How many are compared was worked out by hand: in directory 2 of the bench
//! tree, which has abs, fd, loop, t, tare and up from entry 3 on, loop is compared first, then
//! abs or tare, then fd, t or up.

mod common;

use common::{answer, answer_to, error, program, Named};
use std::ffi::OsString;
use std::io::{BufRead, BufReader, Write};
use std::os::unix::ffi::OsStringExt;
use std::process::Stdio;
use ventolaire::bench_tree::IMAGE;

#[test]
fn one_name_has_one_answer() {
    let image = Named::file(IMAGE);
    let rows: &[(&[&str], i32, &str)] = &[
        (&["2", "tare"], 0, "entry 7, node 3; 2 names compared"),
        (&["2", "loop"], 0, "entry 5, node 6; 1 name compared"),
        (&["002", "fd"], 0, "entry 4, node 10; 3 names compared"),
        (&["1", "pool"], 0, "entry 2, node 7; 2 names compared"),
        (&["8", "run"], 0, "entry 9, node 9; 1 name compared"),
        (&["2", "nope"], 1, "ENOENT (2); 3 names compared"),
        (&["0", "cal"], 1, "ENOENT (2); 1 name compared"),
        (&["7", "run"], 1, "ENOENT (2); 0 names compared"),
        (&["2", ""], 1, "ENOENT (2); 2 names compared"),
        (&["2", ".."], 1, "ENOENT (2); 2 names compared"),
        (&["1", "cal/tare"], 1, "ENOENT (2); 2 names compared"),
        (&["3", "tare"], 1, "ENOTDIR (20); 0 names compared"),
        (&["4", "cal"], 1, "ENOTDIR (20); 0 names compared"),
        (&["12", "tare"], 1, "EBADF (9); 0 names compared"),
        (&["65538", "tare"], 1, "EBADF (9); 0 names compared"),
        (&["18446744073709551618", "tare"], 1, "EBADF (9); 0 names compared"),
        (&["2", "--", "--json"], 1, "ENOENT (2); 2 names compared"),
        (&["2", "-"], 1, "ENOENT (2); 2 names compared"),
    ];
    for (arguments, status, text) in rows {
        assert_eq!(image.lookup(arguments), (*status, format!("{text}\n")), "{arguments:?}");
    }
}

#[test]
fn several_names_have_a_line_each() {
    let image = Named::file(IMAGE);
    let text = "\
tare\tentry 7, node 3; 2 names compared
nope\tENOENT (2); 3 names compared
\tENOENT (2); 2 names compared
a\\tb\\u202e\tENOENT (2); 2 names compared
";
    assert_eq!(image.lookup(&["2", "tare", "nope", "", "a\tb\u{202e}"]), (1, text.into()));
    let all = "up\tentry 8, node 4; 3 names compared\nabs\tentry 3, node 5; 2 names compared\n";
    assert_eq!(image.lookup(&["2", "up", "abs"]), (0, all.into()));
    // One that is refused is enough, wherever it stands.
    assert_eq!(image.lookup(&["2", "no", "up"]).0, 1);
    assert_eq!(image.lookup(&["2", "up", "no"]).0, 1);
}

/// A node that is printed can be given.
#[test]
fn nodes_go_in_as_they_come_out() {
    let image = Named::file(IMAGE);
    let (_, cal) = image.lookup(&["1", "cal"]);
    assert_eq!(cal, "entry 1, node 2; 1 name compared\n");
    let node = cal.split("node ").nth(1).and_then(|rest| rest.split(';').next()).unwrap();
    assert_eq!(image.lookup(&[node, "tare"]).0, 0);
}

#[test]
fn names_come_from_a_list() {
    let image = Named::file(IMAGE);
    let lines = "t\tentry 6, node 11; 3 names compared\nfd\tentry 4, node 10; 3 names compared\n";
    let from_stdin = |input: &[u8], more: &[&str]| {
        let arguments = ["lookup", image.path(), "2", "--names-from", "-"];
        answer_to(input, arguments.iter().chain(more))
    };
    assert_eq!(from_stdin(b"t\nfd\n", &[]), (0, lines.into()));
    assert_eq!(from_stdin(b"t\nfd", &[]), (0, lines.into()));
    assert_eq!(from_stdin(b"t\0fd\0", &["-0"]), (0, lines.into()));
    assert_eq!(from_stdin(b"t\0fd", &["--null"]), (0, lines.into()));
    assert_eq!(from_stdin(b"", &[]), (0, "".into()));

    // A name of its own in each line, as it is.
    let text = "\tENOENT (2); 2 names compared\nt\\x00\tENOENT (2); 3 names compared\n";
    assert_eq!(from_stdin(b"\nt\0\n", &[]), (1, text.into()));
    let text = "t\\nfd\tENOENT (2); 3 names compared\n";
    assert_eq!(from_stdin(b"t\nfd\0", &["-0"]), (1, text.into()));

    // One name stands before its answer too; the image may be what stands on standard input.
    let list = Named::file(b"loop");
    let one = "loop\tentry 5, node 6; 1 name compared\n";
    assert_eq!(image.lookup(&["--names-from", list.path(), "2"]), (0, one.into()));
    let arguments = ["lookup", "-", "2", "--names-from", list.path()];
    assert_eq!(answer_to(IMAGE, arguments), (0, one.into()));
    let one = "entry 5, node 6; 1 name compared\n";
    assert_eq!(answer_to(IMAGE, ["lookup", "-", "2", "loop"]), (0, one.into()));
}

#[test]
fn long_names_are_not_there_and_longer_ones_no_list() {
    let image = Named::file(IMAGE);
    let arguments = ["lookup", image.path(), "2", "--names-from", "-", "--json"];
    let (status, text) = answer_to(&[b'z'; 65_536], arguments);
    let end = "zz\",\"found\":false,\"error\":\"ENOENT\",\"errno\":2,\"compared\":3}\n";
    assert!(status == 1 && text.ends_with(end));

    let list = Named::file(&[&b"up\n"[..], &[b'z'; 65_537]].concat());
    let arguments = ["lookup", image.path(), "2", "--names-from", list.path()];
    let output = program().args(arguments).output().unwrap();
    // The answers before it stand.
    assert_eq!(output.status.code(), Some(2));
    assert_eq!(output.stdout, b"up\tentry 8, node 4; 3 names compared\n");
    let message = format!("ventolaire: name 2 in {} has over 65,536 bytes\n", list.path());
    assert_eq!(String::from_utf8(output.stderr).unwrap(), message);
    let endless = ["lookup", image.path(), "2", "--names-from", "/dev/zero"];
    assert_eq!(error(endless), "name 1 in /dev/zero has over 65,536 bytes");
}

/// Whoever asks name by name is answered at once.
#[test]
fn an_answer_does_not_wait_for_the_next_name() {
    let image = Named::file(IMAGE);
    let mut program = program();
    program.args(["lookup", image.path(), "2", "--names-from", "-"]);
    let mut child = program.stdin(Stdio::piped()).stdout(Stdio::piped()).spawn().unwrap();
    let mut asks = child.stdin.take().unwrap();
    let mut answers = BufReader::new(child.stdout.take().unwrap()).lines();
    for name in ["up", "loop"] {
        writeln!(asks, "{name}").unwrap();
        assert!(answers.next().unwrap().unwrap().starts_with(name));
    }
    drop(asks);
    assert_eq!(child.wait().unwrap().code(), Some(0));
}

#[test]
fn json_names_its_fields() {
    let image = Named::file(IMAGE);
    let found = r#"{"name":"tare","found":true,"entry":7,"node":3,"compared":2}"#;
    let refused = r#"{"name":"nope","found":false,"error":"ENOENT","errno":2,"compared":3}"#;
    assert_eq!(image.lookup(&["--json", "2", "tare"]), (0, format!("{found}\n")));
    let both = image.lookup(&["2", "tare", "nope", "--json"]);
    assert_eq!(both, (1, format!("{found}\n{refused}\n")));
    let refused = r#"{"name":"x","found":false,"error":"EBADF","errno":9,"compared":0}"#;
    assert_eq!(image.lookup(&["12", "x", "--json"]), (1, format!("{refused}\n")));

    let arguments = ["lookup", image.path(), "2", "--names-from", "-", "--json"];
    let name = "{\"name\":\"\u{fffd}\\\"\\u001b\",\"name_hex\":\"ff221b\",\"found\":false,";
    let rest = r#""error":"ENOENT","errno":2,"compared":3}"#;
    assert_eq!(answer_to(b"\xff\"\x1b", arguments), (1, format!("{name}{rest}\n")));

    let empty = Named::file(b"");
    let broken = concat!(
        r#"{"name":"a","found":false,"error":"EUCLEAN","errno":117,"broken":{"rule":1,"#,
        r#""clause":"4.1","reason":"the image has 0 bytes, not 20 to 65,536"},"compared":0}"#
    );
    assert_eq!(empty.lookup(&["0", "a", "--json"]), (1, format!("{broken}\n")));
}

/// A refused image is told for each name, and before a node that it cannot have.
#[test]
fn a_refused_image_is_told() {
    let image = Named::file(b"");
    let why = "rule 1 broken: the image has 0 bytes, not 20 to 65,536 (RULES 4.1)";
    let line = |name: &str| format!("{name}\tEUCLEAN (117), {why}; 0 names compared\n");
    assert_eq!(image.lookup(&["99", "a", "b"]), (1, line("a") + &line("b")));
}

/// Names are bytes, and sorted as such.
#[test]
fn names_are_bytes() {
    let names: [&[u8]; 3] = [b"\n", b"a", b"\xff"];
    let image = Named::file(&common::image(&names, b"."));
    let given = names.map(|name| OsString::from_vec(name.to_vec()));
    let arguments = ["lookup".into(), image.path().into(), "0".into()];
    let text = "\
\\n\tentry 0, node 1; 2 names compared
a\tentry 1, node 1; 1 name compared
\\xff\tentry 2, node 1; 2 names compared
";
    assert_eq!(answer(arguments.into_iter().chain(given)), (0, text.into()));
}
