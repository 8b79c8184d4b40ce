//! Paths answered.

mod common;

use common::{answer, answer_to, error, program, Named};
use std::ffi::OsString;
use std::io::{BufRead, BufReader, Write};
use std::os::unix::ffi::OsStringExt;
use std::process::Stdio;
use ventolaire::bench_tree::IMAGE;

#[test]
fn one_path_has_one_answer() {
    let image = Named::file(IMAGE);
    let rows: &[(&[&str], i32, &str)] = &[
        (&["lab/cal/tare"], 0, "0:3; 3 components, 0 links"),
        (&["cal/tare", "--handle", "0:1"], 0, "0:3; 2 components, 0 links"),
        (&["--handle=0:1", "cal/tare"], 0, "0:3; 2 components, 0 links"),
        (&["cal/tare", "--handle", "(0,1)"], 0, "0:3; 2 components, 0 links"),
        (&["..", "--handle", "0:1", "--mark"], 1, "ENOENT (2); 1 component, 0 links"),
        (&["lab/pool/run", "--resolve", "RESOLVE_NO_XDEV"], 1, "EXDEV (18); 2 components, 0 links"),
        (
            &["lab/cal/up", "--flag", "o_path", "--flag", "NOFOLLOW", "--resolve", "no_symlinks"],
            0,
            "0:4; 3 components, 0 links",
        ),
        (
            &["lab/cal/up", "--flag", "o_path,NOFOLLOW", "--resolve=no_symlinks,NO_XDEV"],
            0,
            "0:4; 3 components, 0 links",
        ),
        (&["lab", "--handle", "9:9"], 1, "EBADF (9); 0 components, 0 links"),
        (&["", "--"], 1, "ENOENT (2); 0 components, 0 links"),
        (&["--", "--mark"], 1, "ENOENT (2); 1 component, 0 links"),
        (&["-"], 1, "ENOENT (2); 1 component, 0 links"),
    ];
    for (arguments, status, text) in rows {
        assert_eq!(image.resolve(arguments), (*status, format!("{text}\n")), "{arguments:?}");
    }
}

/// "with an absolute path, no IN_ROOT and no mark, the handle isn't checked".
#[test]
fn an_absolute_path_wants_no_good_handle() {
    let image = Named::file(IMAGE);
    // Out of range by far, a file, covered, and outside of its mount's root.
    let handles = [
        ("9:99", "EBADF (9)"),
        ("18446744073709551615:18446744073709551615", "EBADF (9)"),
        ("0:3", "ENOTDIR (20)"),
        ("0:7", "EBADF (9)"),
        ("1:1", "EBADF (9)"),
    ];
    for (handle, refused) in handles {
        let rows: &[(&[&str], &str)] = &[
            (&["/lab"], "0:1; 1 component, 0 links"),
            (&["//lab/pool/../cal/abs"], "0:3; 8 components, 1 link"),
            (&["/none"], "ENOENT (2); 1 component, 0 links"),
            (&["/lab", "--resolve", "NO_XDEV"], "0:1; 1 component, 0 links"),
            (&["/lab", "--resolve", "BENEATH"], "EXDEV (18); 0 components, 0 links"),
            (&["/lab", "--resolve", "IN_ROOT"], refused),
            (&["/lab", "--mark"], refused),
            (&["/lab", "--mark", "--resolve", "BENEATH"], refused),
            (&["lab"], refused),
            (&["lab", "--resolve", "BENEATH"], refused),
        ];
        for (arguments, text) in rows {
            let (_, line) = image.resolve(&[arguments, &["--handle", handle][..]].concat());
            // A refused handle is refused before the walk.
            let counts = if *text == refused { "; 0 components, 0 links" } else { "" };
            assert_eq!(line, format!("{text}{counts}\n"), "{handle} {arguments:?}");
        }
        // In one call, each path for itself.
        let both = format!("/\t0:0; 0 components, 0 links\n.\t{refused}; 0 components, 0 links\n");
        assert_eq!(image.resolve(&["/", ".", "--handle", handle]), (1, both));
    }
}

/// Bits are named or numbered, and open_hows given as bytes.
#[test]
fn open_hows_may_be_wrong() {
    let image = Named::file(IMAGE);
    let rows: &[(&[&str], i32, &str)] = &[
        (&["lab", "--resolve", "BENEATH,IN_ROOT"], 1, "EINVAL (22); 0 components, 0 links"),
        (
            &["lab", "--resolve", "BENEATH,0x60"],
            1,
            "EINVAL (22), unknown resolve bit 5; 0 components, 0 links",
        ),
        (
            &["lab", "--flag", "0x40000"],
            1,
            "EINVAL (22), unknown flags bit 18; 0 components, 0 links",
        ),
        (&["lab", "--how", ""], 1, "EINVAL (22); 0 components, 0 links"),
        (
            &["lab", "--how", "0000000000000000000000000000000000000000000000aB"],
            1,
            "EINVAL (22), unknown resolve bit 56; 0 components, 0 links",
        ),
    ];
    for (arguments, status, text) in rows {
        assert_eq!(image.resolve(arguments), (*status, format!("{text}\n")), "{arguments:?}");
    }
}

/// What is printed as a place can be given as one.
#[test]
fn places_go_in_as_they_come_out() {
    let image = Named::file(IMAGE);
    let (_, lab) = image.resolve(&["lab"]);
    let place = lab.split(';').next().unwrap();
    assert_eq!(image.resolve(&["cal/tare", "--handle", place]).0, 0);
}

#[test]
fn several_paths_have_a_line_each() {
    let image = Named::file(IMAGE);
    let text = "\
lab/cal/tare\t0:3; 3 components, 0 links
lab/cal/loop\tELOOP (40); 43 components, 40 links
\tENOENT (2); 0 components, 0 links
a\\tb\\u202e\tENOENT (2); 1 component, 0 links
";
    let paths = ["lab/cal/tare", "lab/cal/loop", "", "a\tb\u{202e}"];
    assert_eq!(image.resolve(&paths), (1, text.into()));
    let all = "lab\t0:1; 1 component, 0 links\n/\t0:0; 0 components, 0 links\n";
    assert_eq!(image.resolve(&["lab", "/"]), (0, all.into()));
    // One that is refused is enough, wherever it stands.
    assert_eq!(image.resolve(&["no", "lab"]).0, 1);
    assert_eq!(image.resolve(&["lab", "no"]).0, 1);
    let path = OsString::from_vec(b"\xff".to_vec());
    let (status, text) = answer(["resolve".into(), image.path().into(), path.clone(), path]);
    assert_eq!((status, text.lines().count()), (1, 2));
    assert!(text.starts_with("\\xff\tENOENT (2)"), "{text}");
}

#[test]
fn paths_come_from_a_list() {
    let image = Named::file(IMAGE);
    let lines = "lab\t0:1; 1 component, 0 links\nlab/pool/run\t1:9; 3 components, 0 links\n";
    let from_stdin = |input: &[u8], more: &[&str]| {
        let arguments = ["resolve", image.path(), "--paths-from", "-"];
        answer_to(input, arguments.iter().chain(more))
    };
    assert_eq!(from_stdin(b"lab\nlab/pool/run\n", &[]), (0, lines.into()));
    assert_eq!(from_stdin(b"lab\nlab/pool/run", &[]), (0, lines.into()));
    assert_eq!(from_stdin(b"lab\0lab/pool/run\0", &["-0"]), (0, lines.into()));
    assert_eq!(from_stdin(b"lab\0lab/pool/run", &["--null"]), (0, lines.into()));
    assert_eq!(from_stdin(b"", &[]), (0, "".into()));

    // A path of its own in each line, as it is.
    let (status, text) = from_stdin(b"\na\0b\n", &[]);
    let empty = "\tENOENT (2); 0 components, 0 links\n";
    assert_eq!(
        (status, text),
        (1, format!("{empty}a\\x00b\tEINVAL (22); 0 components, 0 links\n"))
    );
    let (_, text) = from_stdin(b"a\nb\0", &["-0"]);
    assert_eq!(text, "a\\nb\tENOENT (2); 1 component, 0 links\n");

    // One path has its name too; the image may be what stands on standard input.
    let list = Named::file(b"lab");
    let one = "lab\t0:1; 1 component, 0 links\n";
    assert_eq!(image.resolve(&["--paths-from", list.path()]), (0, one.into()));
    let arguments = ["resolve", "-", "--paths-from", list.path()];
    assert_eq!(answer_to(IMAGE, arguments), (0, one.into()));
}

#[test]
fn long_paths_are_refused_and_longer_ones_no_list() {
    let image = Named::file(IMAGE);
    let arguments = ["resolve", image.path(), "--paths-from", "-", "--json"];
    let (status, text) = answer_to(&[b'/'; 65_536], arguments);
    assert!(status == 1 && text.contains("ENAMETOOLONG"));

    let list = Named::file(&[&b"lab\n"[..], &[b'/'; 65_537]].concat());
    let output = program().args(["resolve", image.path(), "--paths-from", list.path()]).output();
    let output = output.unwrap();
    // The answers before it stand.
    assert_eq!(output.status.code(), Some(2));
    assert_eq!(output.stdout, b"lab\t0:1; 1 component, 0 links\n");
    let message = format!("ventolaire: path 2 in {} has over 65,536 bytes\n", list.path());
    assert_eq!(String::from_utf8(output.stderr).unwrap(), message);
    assert_eq!(
        error(["resolve", image.path(), "--paths-from", "/dev/zero"]),
        "path 1 in /dev/zero has over 65,536 bytes"
    );
}

/// Whoever asks path by path is answered at once.
#[test]
fn an_answer_does_not_wait_for_the_next_path() {
    let image = Named::file(IMAGE);
    let mut program = program();
    program.args(["resolve", image.path(), "--paths-from", "-"]);
    let mut child = program.stdin(Stdio::piped()).stdout(Stdio::piped()).spawn().unwrap();
    let mut asks = child.stdin.take().unwrap();
    let mut answers = BufReader::new(child.stdout.take().unwrap()).lines();
    for path in ["lab", "lab/cal"] {
        writeln!(asks, "{path}").unwrap();
        assert!(answers.next().unwrap().unwrap().starts_with(path));
    }
    drop(asks);
    assert_eq!(child.wait().unwrap().code(), Some(0));
}

#[test]
fn json_names_its_fields() {
    let image = Named::file(IMAGE);
    let found = r#"{"path":"lab/cal/abs","found":true,"place":{"mount":0,"node":3},"components":6,"links":1}"#;
    let refused = r#"{"path":"lab/cal/loop","found":false,"error":"ELOOP","errno":40,"components":43,"links":40}"#;
    assert_eq!(image.resolve(&["--json", "lab/cal/abs"]), (0, format!("{found}\n")));
    let both = image.resolve(&["lab/cal/abs", "lab/cal/loop", "--json"]);
    assert_eq!(both, (1, format!("{found}\n{refused}\n")));

    for (option, field, bit) in [("--resolve=0x20", "resolve", 5), ("--flag=0x40000", "flags", 18)]
    {
        let (_, json) = image.resolve(&["lab", "--json", option]);
        let unknown = format!(r#""unknown_bit":{{"field":"{field}","bit":{bit}}}"#);
        assert!(json.contains(&unknown) && !json.contains("255"), "{json}");
    }
    let arguments = ["resolve", image.path(), "--paths-from", "-", "--json"];
    let (_, json) = answer_to(b"\xff\"\x1b", arguments);
    let path = "{\"path\":\"\u{fffd}\\\"\\u001b\",\"path_hex\":\"ff221b\",\"found\":false,";
    assert!(json.starts_with(path), "{json}");
}

/// Mount 0's root need not be node 0, and a path need not be text.
#[test]
fn the_handle_is_the_root_and_paths_are_bytes() {
    let mut bytes = IMAGE.to_vec();
    // Mount 0 now has the root 1.
    bytes[20 + 12 * 12] = 1;
    bytes[20 + 12 * 12 + 4] = 1;
    // The "t" of "tare", the name of node 3.
    let text = 20 + 12 * 12 + 8 * 2 + 8 * 10;
    bytes[text + 6] = 0xff;
    // So entry 7 has to come last: change places with "up".
    let entry = text - 8 * 10 + 8 * 7;
    let (tare, up) = bytes[entry..entry + 16].split_at_mut(8);
    tare.swap_with_slice(up);
    let image = Named::file(&bytes);

    let path = OsString::from_vec(b"cal/\xffare".to_vec());
    let found = answer(["resolve".into(), image.path().into(), path]);
    assert_eq!(found, (0, "0:3; 2 components, 0 links\n".into()));
}
