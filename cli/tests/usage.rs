//! Help, and wrong usage.

mod common;

use common::{answer, error, program};
use std::ffi::OsString;
use std::os::unix::ffi::OsStringExt;

#[test]
fn help_and_version_are_given() {
    let (status, help) = answer(["--help"]);
    assert_eq!(status, 0);
    assert!(help.contains("USAGE") && help.contains("EXIT STATUS") && help.contains("(default: "));
    for arguments in [
        &["-h"][..],
        &["help"],
        &["resolve", "--help"],
        &["lookup", "--help"],
        &["part", "--help"],
        &["canonical", "-h"],
        &["script", "-h"],
    ] {
        assert_eq!(answer(arguments), (0, help.clone()));
    }
    for name in names() {
        assert!(help.contains(name));
    }
    assert!(help.lines().all(|line| line.chars().count() <= 80));
    let version = concat!("ventolaire ", env!("CARGO_PKG_VERSION"), "\n");
    assert_eq!(answer(["--version"]), (0, version.into()));
    assert_eq!(answer(["-V"]), (0, version.into()));
}

fn names() -> impl Iterator<Item = &'static str> {
    let flags = ventolaire::Flags::NAMED.iter().map(|(name, _)| *name);
    flags.chain(ventolaire::Resolve::NAMED.iter().map(|(name, _)| *name))
}

#[test]
fn wrong_usage_is_told_in_one_line() {
    let rows: &[(&[&str], &str)] = &[
        (&[], "no command given; see ventolaire --help"),
        (&["chekc"], "no command is named chekc; see ventolaire --help"),
        (&["check"], "check wants IMAGE"),
        (&["check", "a", "b"], "check has no use for b"),
        (&["check", "--dot", "a"], "check has no option --dot"),
        (&["show", "a", "--dots"], "there is no option --dots"),
        (&["show", "a", "-1"], "there is no option -1"),
        (&["show", "a", "--dot=x"], "--dot takes no value"),
        (&["show", "a", "--dot", "--json"], "--dot and --json exclude each other"),
        (&["demo", "a", "b"], "demo has no use for b"),
        (&["demo", "-"], "demo writes its image to a file; write ./- for one of that name"),
        (&["resolve"], "resolve wants IMAGE"),
        (&["resolve", "a"], "resolve wants PATH, or --paths-from"),
        (&["resolve", "a", "b", "-0"], "--null wants --paths-from"),
        (
            &["resolve", "a", "b", "--paths-from", "c"],
            "--paths-from and the path b exclude each other",
        ),
        (
            &["resolve", "-", "--paths-from", "-"],
            "IMAGE and --paths-from cannot both be standard input",
        ),
        (&["resolve", "a", "b", "--handle"], "--handle wants a value"),
        (&["resolve", "a", "b", "--how", "0"], "--how wants bytes in hexadecimal, not 0"),
        (&["resolve", "a", "b", "--how", "0x"], "--how wants bytes in hexadecimal, not 0x"),
        (
            &["resolve", "a", "b", "--how", "00", "--flag", "PATH"],
            "--how and --flag exclude each other",
        ),
    ];
    for (arguments, text) in rows {
        assert_eq!(error(*arguments), *text, "{arguments:?}");
    }
}

#[test]
fn wrong_usage_of_lookup_is_told_in_one_line() {
    let rows: &[(&[&str], &str)] = &[
        (&["lookup"], "lookup wants IMAGE"),
        (&["lookup", "a"], "lookup wants NODE"),
        (&["lookup", "a", "2"], "lookup wants NAME, or --names-from"),
        (&["lookup", "a", "--names-from", "c"], "lookup wants NODE"),
        (&["lookup", "a", "cal", "tare"], "lookup wants a node's number, not cal"),
        (&["lookup", "a", "0:2", "tare"], "lookup wants a node's number, not 0:2"),
        (&["lookup", "a", "+2", "tare"], "lookup wants a node's number, not +2"),
        (&["lookup", "a", "0x2", "tare"], "lookup wants a node's number, not 0x2"),
        (&["lookup", "a", "2 ", "tare"], "lookup wants a node's number, not 2 "),
        (&["lookup", "a", "", "tare"], "lookup wants a node's number, not ''"),
        (&["lookup", "a", "\u{661}", "tare"], "lookup wants a node's number, not \u{661}"),
        (&["lookup", "a", "-1", "tare"], "there is no option -1"),
        (&["lookup", "a", "--", "-1", "tare"], "lookup wants a node's number, not -1"),
        (&["lookup", "a", "2", "b", "-0"], "--null wants --names-from"),
        (
            &["lookup", "a", "2", "b", "--names-from", "c"],
            "--names-from and the name b exclude each other",
        ),
        (
            &["lookup", "-", "2", "--names-from", "-"],
            "IMAGE and --names-from cannot both be standard input",
        ),
        (&["lookup", "a", "2", "--names-from"], "--names-from wants a value"),
        (&["lookup", "a", "2", "--paths-from", "c"], "lookup has no option --paths-from"),
        (&["lookup", "a", "2", "b", "--handle", "0:2"], "lookup has no option --handle"),
        (&["resolve", "a", "--names-from", "c"], "resolve has no option --names-from"),
    ];
    for (arguments, text) in rows {
        assert_eq!(error(*arguments), *text, "{arguments:?}");
    }
}

#[test]
fn wrong_usage_of_part_is_told_in_one_line() {
    let rows: &[(&[&str], &str)] = &[
        (&["part"], "part wants IMAGE"),
        (&["part", "--common", "a"], "part wants IMAGE"),
        (&["part", "a", "b"], "part has no use for b"),
        (&["part", "a", "--common"], "--common wants a value"),
        (&["part", "-", "--common", "-"], "IMAGE and --common cannot both be standard input"),
        (&["part", "a", "--handle", "1"], "--handle wants MOUNT:NODE, not 1"),
        (&["part", "a", "--mark"], "part has no option --mark"),
        (&["part", "a", "--resolve", "BENEATH"], "part has no option --resolve"),
        (&["resolve", "a", "b", "--common", "c"], "resolve has no option --common"),
    ];
    for (arguments, text) in rows {
        assert_eq!(error(*arguments), *text, "{arguments:?}");
    }
}

#[test]
fn wrong_usage_of_canonical_is_told_in_one_line() {
    let rows: &[(&[&str], &str)] = &[
        (&["canonical"], "canonical wants IMAGE"),
        (&["canonical", "a", "b"], "canonical has no use for b"),
        (&["canonical", "a", "--dot"], "canonical has no option --dot"),
        (&["canonical", "a", "-o"], "--output wants a value"),
        (&["canonical", "a", "-o", "-"], "--output wants a file; write ./- for one of that name"),
        (&["canonical", "a", "--force"], "--force wants --output"),
        (&["canonical", "a", "--check", "--force"], "--force wants --output"),
        (&["canonical", "a", "--json"], "--json wants --check"),
        (&["canonical", "a", "-o", "b", "--json"], "--json wants --check"),
        (&["canonical", "a", "-o", "b", "--check"], "--check and --output exclude each other"),
        (&["check", "a", "--check"], "check has no option --check"),
        (&["demo", "a", "--force"], "demo has no option --force"),
    ];
    for (arguments, text) in rows {
        assert_eq!(error(*arguments), *text, "{arguments:?}");
    }
}

#[test]
fn wrong_usage_of_script_is_told_in_one_line() {
    let rows: &[(&[&str], &str)] = &[
        (&["script"], "script wants IMAGE"),
        (&["script", "a", "b", "c"], "script has no use for c"),
        (&["script", "a", "--mark"], "script has no option --mark"),
        (&["script", "-"], "IMAGE and the calls cannot both be standard input"),
        (&["script", "-", "-"], "IMAGE and the calls cannot both be standard input"),
    ];
    for (arguments, text) in rows {
        assert_eq!(error(*arguments), *text, "{arguments:?}");
    }
}

#[test]
fn a_place_is_two_numbers() {
    for place in ["1", "-1:0", "+1:0", "1:", ":", "0,1", "(0:1)", "0:1 ", "1:18446744073709551616"]
    {
        let text = format!("--handle wants MOUNT:NODE, not {place}");
        assert_eq!(error(["resolve", "a", "b", "--handle", place]), text);
    }
}

#[test]
fn unknown_names_of_bits_are_told() {
    for (option, given, wrong, what) in [
        ("--flag", "O_BELOW", "O_BELOW", "flag"),
        ("--flag", "PATH,", "", "flag"),
        ("--flag", "0x", "0x", "flag"),
        ("--resolve", "BENEATH,CACHED", "CACHED", "resolve bit"),
        ("--resolve", "0x10000000000000000", "0x10000000000000000", "resolve bit"),
        ("--resolve", "8", "8", "resolve bit"),
        ("--resolve", "0x+8", "0x+8", "resolve bit"),
    ] {
        let text = error(["resolve", "a", "b", option, given]);
        let start = format!("no {what} is named \"{wrong}\"; there are ");
        assert!(text.starts_with(&start), "{text}");
    }
    let flags = "O_DIRECTORY, O_NOFOLLOW, O_CLOEXEC, O_PATH";
    assert!(error(["resolve", "a", "b", "--flag", "x"]).ends_with(flags));
}

/// What is given may be no text, or hide what it says.
#[test]
fn messages_are_escaped() {
    let bytes = |bytes: &[u8]| OsString::from_vec(bytes.to_vec());
    let odd = bytes(b"\x1b[2J\n\xff\xe2\x80\xae");
    let shown = "\\x1b[2J\\n\\xff\\u202e";
    let no_file = format!("cannot read {shown}: No such file or directory (os error 2)");
    let [check, resolve, lookup, demo] = ["check", "resolve", "lookup", "demo"].map(OsString::from);
    assert!(error([odd.clone()]).contains(shown));
    assert_eq!(error([check.clone(), odd.clone()]), no_file);
    assert_eq!(error([resolve.clone(), odd.clone(), "a".into()]), no_file);
    assert!(error([check.clone(), "a".into(), odd.clone()]).ends_with(shown));
    assert!(error([lookup, "a".into(), odd.clone(), "b".into()]).ends_with(shown));
    let [canonical, image] = ["canonical", env!("CARGO_BIN_EXE_ventolaire")].map(OsString::from);
    assert!(error([canonical.clone(), odd.clone(), "--check".into()]).contains(shown));
    assert!(error([canonical, image, "-o".into(), odd.clone()]).starts_with("cannot write "));
    let there = bytes(b"/no/\x07");
    assert!(error([demo, there]).starts_with("cannot write /no/\\x07: "));
    let option = bytes(b"--\xff=\x1b");
    assert_eq!(error([check, option]), "there is no option --\\xff=\\x1b");
    for option in ["--handle", "--how", "--flag"] {
        let given = ["resolve", "a", "b", option].map(OsString::from);
        let line = error(given.into_iter().chain([odd.clone()]));
        assert!(line.contains("\\x1b[2J\\n") && !line.contains('\x1b'), "{line}");
    }
    // A file's name behind an equals sign may be any bytes.
    let joined = bytes(b"--paths-from=/no/\xff");
    let image = OsString::from(env!("CARGO_BIN_EXE_ventolaire"));
    let line = error([resolve, image, joined]);
    assert!(line.starts_with("cannot read /no/\\xff: "), "{line}");
}

/// Without a place to tell an error there is its status.
#[test]
fn an_error_that_cannot_be_told_is_still_one() {
    let full = std::fs::File::options().write(true).open("/dev/full").unwrap();
    let status = program().arg("chekc").stderr(full).status().unwrap();
    assert_eq!(status.code(), Some(2));
}
