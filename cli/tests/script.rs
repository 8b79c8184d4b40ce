//! Scripts of calls on descriptors.

mod common;

use common::{answer, answer_to, program, Named};
use std::io::{BufRead, BufReader, Write};
use std::process::{Output, Stdio};
use std::sync::mpsc;
use std::thread;
use std::time::Duration;
use ventolaire::bench_tree::IMAGE;

/// Status and answers of a script over the bench tree.
fn script(calls: &[u8]) -> (i32, String) {
    let image = Named::file(IMAGE);
    answer_to(calls, ["script", image.path()])
}

/// Each call with its answer; the status is 1 if one is refused.
fn answers(rows: &[(&str, &str)]) {
    let calls: String = rows.iter().map(|(call, _)| format!("{call}\n")).collect();
    let (_, text) = script(calls.as_bytes());
    let lines: Vec<&str> = text.lines().collect();
    assert_eq!(lines.len(), rows.len(), "{text}");
    for ((call, answer), line) in rows.iter().zip(lines) {
        assert_eq!(line, *answer, "{call}");
    }
}

#[test]
fn calls_are_answered_a_line_each() {
    answers(&[
        ("open 0 lab --mark --flag DIRECTORY", "1 = 0:1; 1 component, 0 links"),
        ("open 1 ..", "ENOENT (2); 1 component, 0 links"),
        ("open 1 cal/tare", "2 = 0:3; 2 components, 0 links"),
        ("dup 1", "3 = copy of 1"),
        ("open 3 /", "ENOENT (2); 0 components, 0 links"),
        ("close 1", "done"),
        ("open 3 cal", "1 = 0:2; 1 component, 0 links"),
        ("open 1 ..", "4 = 0:1; 1 component, 0 links"),
        ("mark 1", "done"),
        ("open 1 ..", "ENOENT (2); 1 component, 0 links"),
        ("open 4 pool/run --resolve no_xdev", "EXDEV (18); 1 component, 0 links"),
        ("open 4 pool/run", "5 = 1:9; 2 components, 0 links"),
    ]);
}

/// What has to do with descriptors is told in words.
#[test]
fn refusals_are_told_in_words() {
    answers(&[
        ("close 5", "EBADF (9), descriptor 5 is not open; 0 components, 0 links"),
        ("dup 64", "EBADF (9), there is no descriptor above 63; 0 components, 0 links"),
        (
            "mark 99999999999999999999999",
            "EBADF (9), there is no descriptor above 63; 0 components, 0 links",
        ),
        ("open 5 '' --how 00", "EBADF (9), descriptor 5 is not open; 0 components, 0 links"),
        ("open 5 /lab", "EBADF (9), descriptor 5 is not open; 0 components, 0 links"),
        ("open 0 lab --mark", "EINVAL (22), the mark wants O_DIRECTORY; 0 components, 0 links"),
        ("open 0 lab --mark --how 00", "EINVAL (22); 0 components, 0 links"),
        ("open 0 lab --mark --how 0000000000000000", "EINVAL (22); 0 components, 0 links"),
        (
            "open 0 lab --mark --flag directory --resolve 0x20",
            "EINVAL (22), unknown resolve bit 5; 0 components, 0 links",
        ),
        ("open 0 lab/cal/tare", "1 = 0:3; 3 components, 0 links"),
        ("mark 1", "ENOTTY (25), descriptor 1 is no directory; 0 components, 0 links"),
        ("open 1 .", "ENOTDIR (20), descriptor 1 is no directory; 0 components, 0 links"),
        (
            "open 1 /lab --resolve in_root",
            "ENOTDIR (20), descriptor 1 is no directory; 0 components, 0 links",
        ),
        ("open 1 /lab --resolve beneath", "EXDEV (18); 0 components, 0 links"),
        ("open 1 /lab", "2 = 0:1; 1 component, 0 links"),
        ("open 0 lab/cal/tare/", "ENOTDIR (20); 3 components, 0 links"),
    ]);
}

#[test]
fn a_covered_directory_is_told() {
    let mut image = IMAGE.to_vec();
    // The node of the target of "fd": pool.
    image[20 + 12 * 10 + 8] = 7;
    let image = Named::file(&image);
    let covered =
        "EBADF (9), descriptor 1 is a directory that a mount covers; 0 components, 0 links\n";
    let calls = b"open 0 lab/cal/fd\nopen 1 .\nopen 1 /lab\nmark 1\nopen 1 /lab\n";
    let opened = ["1 = 0:7; 3 components, 1 link\n", "2 = 0:1; 1 component, 0 links\ndone\n"];
    let text = [opened[0], covered, opened[1], covered].concat();
    assert_eq!(answer_to(calls, ["script", image.path()]), (1, text));
}

#[test]
fn all_descriptors_may_be_open() {
    let (status, text) = script("dup 0\n".repeat(64).as_bytes());
    assert_eq!((status, text.lines().count()), (1, 64));
    assert!(text.contains("\n63 = copy of 0\n"), "{text}");
    let last = "EMFILE (24), all 64 descriptors are open; 0 components, 0 links\n";
    assert!(text.ends_with(last), "{text}");
}

#[test]
fn the_status_tells_refusals() {
    assert_eq!(script(b""), (0, "".into()));
    assert_eq!(script(b"dup 0\nclose 1"), (0, "1 = copy of 0\ndone\n".into()));
    // One that is refused is enough, wherever it stands.
    assert_eq!(script(b"close 1\ndup 0\n").0, 1);
    assert_eq!(script(b"dup 0\nclose 2\n").0, 1);
}

#[test]
fn comments_and_blanks_are_skipped() {
    let calls = b"# a comment\n\n  \t\n\r\n  # another\n\tdup \t 0 \n#close 0\nclose 1";
    assert_eq!(script(calls), (0, "1 = copy of 0\ndone\n".into()));
}

#[test]
fn calls_come_from_a_file() {
    let (image, calls) = (Named::file(IMAGE), Named::file(b"open 0 lab\n"));
    let text = "1 = 0:1; 1 component, 0 links\n";
    assert_eq!(answer(["script", image.path(), calls.path()]), (0, text.into()));
    assert_eq!(answer_to(IMAGE, ["script", "-", calls.path()]), (0, text.into()));
    assert_eq!(answer_to(b"open 0 lab", ["script", image.path(), "-"]), (0, text.into()));
}

/// Names may have blanks, quotes, bytes that are no text, or a dash in front.
#[test]
fn paths_are_quoted_and_escaped() {
    let names: [&[u8]; 5] = [b"\n\xff", b" ", b"#", b"--mark", b"it's \"so\""];
    let image = Named::file(&common::image(&names, b"."));
    let nofollow = "--flag NOFOLLOW,PATH";
    let rows = [
        r#"open 0 " " O"#,
        r"open 0 \  O",
        "open 0 # O",
        "open 0 O -- --mark",
        r#"open 0 'it\'s "so"' O"#,
        r#"open 0 "it's \"so\"" O"#,
        r"open 0 it\'s\ \x22so\x22 O",
        r"open 0 \n\xff O",
        r"open 0 '\x0a\xFF' O",
    ];
    let calls = rows.map(|row| row.replace('O', nofollow) + "\n").concat();
    let (status, text) = answer_to(calls.as_bytes(), ["script", image.path()]);
    assert_eq!((status, text.lines().count()), (0, rows.len()), "{text}");
    assert!(text.lines().all(|line| line.ends_with(" = 0:1; 1 component, 0 links")), "{text}");
    // Bytes need no escape, and an empty path needs quotes.
    let raw = [&b"open 0 '\xff'\nopen 0 ''\n"[..]].concat();
    let text = "ENOENT (2); 1 component, 0 links\nENOENT (2); 0 components, 0 links\n";
    assert_eq!(answer_to(&raw, ["script", image.path()]), (1, text.into()));
}

/// A run that is ended by a line: what was answered before it, and the message.
fn ended(output: Output) -> (String, String) {
    assert_eq!(output.status.code(), Some(2));
    let [answers, message] = [output.stdout, output.stderr].map(|b| String::from_utf8(b).unwrap());
    (answers, message)
}

/// The script ends there: the answers before stand, and nothing behind is done.
#[test]
fn a_line_that_is_no_call_ends_the_script() {
    let image = Named::file(IMAGE);
    for (line, wrong) in [
        ("opne 0 lab", "no call is named opne; there are open, dup, close, mark"),
        ("Close 0", "no call is named Close; there are open, dup, close, mark"),
        ("open", "open wants NUMBER PATH"),
        ("open 0", "open wants NUMBER PATH"),
        ("open 0 lab cal", "open has no use for cal"),
        ("open 0 lab # why", "open has no use for #"),
        ("dup", "dup wants NUMBER"),
        ("dup 0 1", "dup has no use for 1"),
        ("dup 0 --mark", "dup has no option --mark"),
        ("open 0 lab --json", "open has no option --json"),
        ("open 0 lab --handle 0:1", "open has no option --handle"),
        ("open 0 lab --mrak", "there is no option --mrak"),
        ("open 0 lab --how 0", "--how wants bytes in hexadecimal, not 0"),
        ("open 0 lab --how 00 --flag PATH", "--how and --flag exclude each other"),
        ("mark lab", "mark wants a number, not lab"),
        ("mark +1", "mark wants a number, not +1"),
        ("mark 0\r", "mark wants a number, not 0\\r"),
        ("mark ''", "mark wants a number, not ''"),
        ("open 0 'lab", "a quote (') is not closed"),
        ("open 0 \\lab", "\\l is no escape"),
    ] {
        let calls = Named::file(format!("# first\ndup 0\n{line}\nclose 0\n").as_bytes());
        let output = program().args(["script", image.path(), calls.path()]).output().unwrap();
        let message = format!("ventolaire: line 3 in {}: {wrong}\n", calls.path());
        assert_eq!(ended(output), ("1 = copy of 0\n".into(), message));
    }
}

#[test]
fn a_line_on_standard_input_is_told_too() {
    let image = Named::file(IMAGE);
    let mut program = program();
    let program = program.args(["script", image.path()]).stdin(Stdio::piped());
    let mut child = program.stdout(Stdio::piped()).stderr(Stdio::piped()).spawn().unwrap();
    child.stdin.take().unwrap().write_all(b"dup 0\nhalt\n").unwrap();
    let message = "ventolaire: line 2 in standard input: no call is named halt; \
        there are open, dup, close, mark\n";
    let output = child.wait_with_output().unwrap();
    assert_eq!(ended(output), ("1 = copy of 0\n".into(), message.into()));
}

/// A path of 4,095 bytes may be written with each byte escaped; longer ones are refused by name.
#[test]
fn lines_may_be_long() {
    let call = |count: usize| format!("open 0 '{}'\n", "\\x2f".repeat(count));
    let (status, text) = script((call(4_095) + &call(4_096)).as_bytes());
    let lines = "1 = 0:0; 0 components, 0 links\nENAMETOOLONG (36); 0 components, 0 links\n";
    assert_eq!((status, text), (1, lines.into()));
    let how = format!("open 0 lab --how {}\n", "00".repeat(4_097));
    assert_eq!(script(how.as_bytes()), (1, "E2BIG (7); 0 components, 0 links\n".into()));

    let image = Named::file(IMAGE);
    let padded = |len: usize| format!("dup 0\n{}dup 0\n", " ".repeat(len - 5));
    let text = "1 = copy of 0\n2 = copy of 0\n";
    assert_eq!(script(padded(65_536).as_bytes()), (0, text.into()));
    let calls = Named::file(padded(65_537).as_bytes());
    let output = program().args(["script", image.path(), calls.path()]).output().unwrap();
    let message = format!("ventolaire: line 2 in {} has over 65,536 bytes\n", calls.path());
    assert_eq!(ended(output), ("1 = copy of 0\n".into(), message));
}

/// Whoever asks call by call is answered at once, whatever stands behind the call.
#[test]
fn an_answer_does_not_wait_for_the_next_call() {
    let image = Named::file(IMAGE);
    let mut program = program();
    program.args(["script", image.path()]);
    let mut child = program.stdin(Stdio::piped()).stdout(Stdio::piped()).spawn().unwrap();
    let mut asks = child.stdin.take().unwrap();
    let lines = BufReader::new(child.stdout.take().unwrap()).lines();
    let (sends, answers) = mpsc::channel();
    thread::spawn(move || lines.for_each(|line| sends.send(line.unwrap()).unwrap()));
    for (call, answer) in [
        ("dup 0\n", "1 = copy of 0"),
        ("# next\ndup 0\n# done\n\n", "2 = copy of 0"),
        ("close 1\ncl", "done"),
        ("ose 2\n", "done"),
    ] {
        asks.write_all(call.as_bytes()).unwrap();
        assert_eq!(answers.recv_timeout(Duration::from_secs(10)).as_deref(), Ok(answer));
    }
    drop(asks);
    assert_eq!(child.wait().unwrap().code(), Some(0));
}

#[test]
fn json_names_its_fields() {
    let image = Named::file(IMAGE);
    let calls = "# first\nopen 0 lab/cal/abs\ndup 1\nclose 2\nmark 1\nopen 0 none\n\
        open 0 lab --flag 0x40000\n";
    let lines = [
        concat!(
            r#"{"line":2,"call":"open","done":true,"descriptor":1,"#,
            r#""place":{"mount":0,"node":3},"components":6,"links":1}"#
        ),
        r#"{"line":3,"call":"dup","done":true,"descriptor":2}"#,
        r#"{"line":4,"call":"close","done":true}"#,
        concat!(
            r#"{"line":5,"call":"mark","done":false,"error":"ENOTTY","errno":25,"#,
            r#""reason":"descriptor 1 is no directory","components":0,"links":0}"#
        ),
        concat!(
            r#"{"line":6,"call":"open","done":false,"error":"ENOENT","errno":2,"#,
            r#""components":1,"links":0}"#
        ),
        concat!(
            r#"{"line":7,"call":"open","done":false,"error":"EINVAL","errno":22,"#,
            r#""unknown_bit":{"field":"flags","bit":18},"components":0,"links":0}"#
        ),
    ];
    let (status, text) = answer_to(calls.as_bytes(), ["script", image.path(), "--json"]);
    assert_eq!((status, text), (1, lines.map(|line| format!("{line}\n")).concat()));
}

/// Nothing is open over a refused image. Why is told once, in JSON with each call.
#[test]
fn a_refused_image_has_no_descriptors() {
    let (image, calls) = (Named::file(b""), Named::file(b"open 0 lab\ndup 0\nmark 64\n"));
    let run = |more: &[&str]| {
        let output = program().args(["script", image.path(), calls.path()]).args(more).output();
        let output = output.unwrap();
        assert_eq!(output.status.code(), Some(1));
        let why = "ventolaire: no descriptor is open, the image is refused: rule 1 broken: ";
        let told = String::from_utf8(output.stderr).unwrap();
        assert!(told.starts_with(why) && told.lines().count() == 1, "{told}");
        String::from_utf8(output.stdout).unwrap()
    };
    let closed = "EBADF (9), descriptor 0 is not open; 0 components, 0 links\n".repeat(2);
    let above = "EBADF (9), there is no descriptor above 63; 0 components, 0 links\n";
    assert_eq!(run(&[]), closed + above);
    let json = run(&["--json"]);
    assert_eq!(json.matches(r#""error":"EBADF","errno":9,"reason":""#).count(), 3, "{json}");
    assert_eq!(json.matches(r#","broken":{"rule":1,"clause":"4.1","#).count(), 3, "{json}");

    // The image is refused even if nothing is asked.
    let output = program().args(["script", image.path()]).output().unwrap();
    assert_eq!((output.status.code(), output.stdout.len()), (Some(1), 0));
}
