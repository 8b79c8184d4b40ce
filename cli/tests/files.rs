//! Files that are no images, or cannot be read or written: one line, status 2, and
//! nothing written. Bytes that can be read have a verdict, whatever they are.

mod common;

use common::{answer, answered, error, failed, program, Named};
use std::fs::{self, File, Permissions};
use std::io::Read;
use std::os::unix::fs::PermissionsExt;
use std::process::{Command, Stdio};
use std::thread;
use std::time::Duration;
use ventolaire::bench_tree::IMAGE;

/// What each command says of an image that cannot be read.
fn unreadable(file: &str, why: &str) {
    let message = format!("cannot read {file}: {why}");
    for more in [&[][..], &["--json"]] {
        let image = Named::file(IMAGE);
        for arguments in [
            &["check", file][..],
            &["show", file],
            &["resolve", file, "a", "b"],
            &["resolve", image.path(), "--paths-from", file],
            &["lookup", file, "2", "a", "b"],
            &["lookup", image.path(), "2", "--names-from", file],
            &["script", file],
            &["script", image.path(), file],
        ] {
            assert_eq!(error(arguments.iter().chain(more)), message);
        }
    }
    assert_eq!(error(["show", "--dot", file]), message);
    assert_eq!(error(["canonical", file]), message);
    assert_eq!(error(["canonical", "--check", file]), message);
}

/// What each command says of bytes that are no table.
fn refused(file: &str, why: &str) {
    assert_eq!(answer(["check", file]), (1, format!("{why}\n")));
    let line = format!("EUCLEAN (117), {why}; 0 components, 0 links\n");
    assert_eq!(answer(["resolve", file, "a"]), (1, line));
    let line = format!("EUCLEAN (117), {why}; 0 names compared\n");
    assert_eq!(answer(["lookup", file, "2", "a"]), (1, line));
    for arguments in [&["show", file][..], &["show", file, "--dot"], &["show", file, "--json"]] {
        assert_eq!(error(arguments), format!("cannot show {file}: {why}"));
    }
    assert_eq!(answer(["canonical", file, "--check"]), (1, format!("{why}\n")));
    let shown = if file == "-" { "standard input" } else { file };
    assert_eq!(error(["canonical", file]), format!("cannot write {shown} anew: {why}"));
    let calls = Named::file(b"close 0\n");
    let output = program().args(["script", file, calls.path()]).output().unwrap();
    assert_eq!(output.status.code(), Some(1));
    let line = "EBADF (9), descriptor 0 is not open; 0 components, 0 links\n";
    assert_eq!(String::from_utf8(output.stdout).unwrap(), line);
    let line = format!("ventolaire: no descriptor is open, the image is refused: {why}\n");
    assert_eq!(String::from_utf8(output.stderr).unwrap(), line);
}

#[test]
fn files_that_are_not_there() {
    unreadable("/no/such", "No such file or directory (os error 2)");
    assert_eq!(
        error(["demo", "/no/such"]),
        "cannot write /no/such: No such file or directory (os error 2)"
    );
}

#[test]
fn folders() {
    unreadable("/", "Is a directory (os error 21)");
    let folder = Named::new();
    fs::create_dir(&folder.0).unwrap();
    let there = format!("cannot write {}: File exists (os error 17)", folder.path());
    assert_eq!(error(["demo", folder.path()]), there);
    assert_eq!(fs::read_dir(&folder.0).unwrap().count(), 0);
}

#[test]
fn wrong_and_empty_files() {
    let wrong = Named::file(b"#!/bin/sh\necho this is a script\n");
    refused(wrong.path(), "rule 2 broken: its first bytes are not the signature TOC1 (RULES 4.2)");
    let empty = Named::file(b"");
    let why = "rule 1 broken: the image has 0 bytes, not 20 to 65,536 (RULES 4.1)";
    refused(empty.path(), why);
    refused("/dev/null", why);
    refused("-", why);
}

/// Of 5 GB, and of a file without an end, no more is read than shows its length.
#[test]
fn files_that_are_too_long() {
    let why = "rule 1 broken: the image has over 65,536 bytes (RULES 4.1)";
    refused("/dev/zero", why);
    let long = Named::file(b"TOC1");
    File::options().write(true).open(&long.0).unwrap().set_len(5_000_000_000).unwrap();
    refused(long.path(), why);
    let image = Named::file(IMAGE);
    assert_eq!(
        error(["resolve", image.path(), "--paths-from", long.path()]),
        format!("path 1 in {} has over 65,536 bytes", long.path())
    );
    assert_eq!(
        error(["lookup", image.path(), "2", "--names-from", long.path()]),
        format!("name 1 in {} has over 65,536 bytes", long.path())
    );
    assert_eq!(
        error(["script", image.path(), long.path()]),
        format!("line 1 in {} has over 65,536 bytes", long.path())
    );
}

/// Runs where permissions bite: not as root.
#[test]
fn files_that_may_not_be_read_or_written() {
    let file = Named::file(IMAGE);
    fs::set_permissions(&file.0, Permissions::from_mode(0o000)).unwrap();
    if File::open(&file.0).is_ok() {
        return;
    }
    unreadable(file.path(), "Permission denied (os error 13)");
    let folder = Named::new();
    fs::create_dir(&folder.0).unwrap();
    fs::set_permissions(&folder.0, Permissions::from_mode(0o500)).unwrap();
    let inside = format!("{}/new", folder.path());
    let message = format!("cannot write {inside}: Permission denied (os error 13)");
    assert_eq!(error(["demo", &inside]), message);
}

fn fifo() -> Named {
    let fifo = Named::new();
    assert!(Command::new("mkfifo").arg(&fifo.0).status().unwrap().success());
    fifo
}

/// It is waited for, but not for ever.
#[test]
fn a_fifo_without_a_writer() {
    let fifo = fifo();
    let message = format!("cannot read {}: nobody writes to this FIFO", fifo.path());
    assert_eq!(error(["check", fifo.path()]), message);
    assert_eq!(error(["show", fifo.path()]), message);
    assert_eq!(error(["resolve", fifo.path(), "a"]), message);
    let image = Named::file(IMAGE);
    assert_eq!(error(["resolve", image.path(), "--paths-from", fifo.path()]), message);
    assert_eq!(error(["lookup", image.path(), "2", "--names-from", fifo.path()]), message);
    assert_eq!(error(["script", image.path(), fifo.path()]), message);
    let there = format!("cannot write {}: File exists (os error 17)", fifo.path());
    assert_eq!(error(["demo", fifo.path()]), there);
}

#[test]
fn a_fifo_with_a_writer() {
    let fifo = fifo();
    let path = fifo.0.clone();
    // It comes late, and writes in two parts.
    let writer = thread::spawn(move || {
        use std::io::Write;
        thread::sleep(Duration::from_millis(100));
        let mut fifo = File::options().write(true).open(path).unwrap();
        fifo.write_all(&IMAGE[..100]).unwrap();
        thread::sleep(Duration::from_millis(100));
        fifo.write_all(&IMAGE[100..]).unwrap();
    });
    assert_eq!(answer(["check", fifo.path()]), (0, "accepted\n".into()));
    writer.join().unwrap();
}

/// A shell's `<(..)` is a pipe with a name.
#[test]
fn a_command_in_place_of_a_file() {
    let image = Named::file(IMAGE);
    let script =
        r#""$0" resolve <(sleep 0.1; cat "$1") --paths-from <(echo lab; sleep 0.1; echo /)"#;
    let program = env!("CARGO_BIN_EXE_ventolaire");
    let Ok(output) = Command::new("bash").args(["-c", script, program, image.path()]).output()
    else {
        return;
    };
    let text = "lab\t0:1; 1 component, 0 links\n/\t0:0; 0 components, 0 links\n";
    assert_eq!(answered(output), (0, text.into()));
}

/// Whoever reads has had enough: no error, and no end without a reader.
#[test]
fn a_reader_that_leaves_early() {
    let image = Named::file(IMAGE);
    let endless = ["resolve", image.path(), "--paths-from", "/dev/zero", "-0"];
    let script = Named::file(b"open 0 lab\n");
    let rows: &[(&[&str], i32)] = &[
        (&["demo"], 0),
        (&["--help"], 0),
        (&["check", image.path()], 0),
        (&["show", image.path()], 0),
        (&["resolve", image.path(), "lab", "/"], 0),
        (&["resolve", image.path(), "no", "no"], 1),
        (&["lookup", image.path(), "2", "up", "t"], 0),
        (&["lookup", image.path(), "2", "up", "no"], 1),
        (&["canonical", image.path()], 0),
        (&["canonical", image.path(), "--check"], 1),
        (&["script", image.path(), script.path()], 0),
        (&endless, 1),
    ];
    for (arguments, status) in rows {
        let mut program = program();
        let program = program.args(*arguments).stdout(Stdio::piped()).stderr(Stdio::piped());
        let mut child = program.spawn().unwrap();
        if *arguments == endless {
            child.stdout.as_mut().unwrap().read_exact(&mut [0; 100]).unwrap();
        }
        drop(child.stdout.take());
        let output = child.wait_with_output().unwrap();
        assert_eq!(output.status.code(), Some(*status), "{arguments:?}");
        assert_eq!(output.stderr, b"");
    }
}

#[test]
fn a_full_disk() {
    let image = Named::file(IMAGE);
    let script = Named::file(b"open 0 lab\n");
    let rows: &[&[&str]] = &[
        &["demo"],
        &["demo", "--json"],
        &["--help"],
        &["check", image.path()],
        &["show", image.path()],
        &["resolve", image.path(), "lab", "/"],
        &["resolve", image.path(), "--paths-from", "/dev/zero", "-0"],
        &["lookup", image.path(), "2", "up"],
        &["lookup", image.path(), "2", "--names-from", "/dev/zero", "-0"],
        &["canonical", image.path()],
        &["canonical", image.path(), "--check"],
        &["script", image.path(), script.path()],
    ];
    for arguments in rows {
        let full = File::options().write(true).open("/dev/full").unwrap();
        let output = program().args(*arguments).stdout(full).output().unwrap();
        assert_eq!(failed(output), "cannot print: No space left on device (os error 28)");
    }
}

/// What could not be written whole is taken back. The test gives the program names in its
/// own folder alone: one that is wrong here may remove what it is given.
#[test]
fn an_image_that_cannot_be_written_whole() {
    let (image, folder) = (Named::file(IMAGE), Named::new());
    fs::create_dir(&folder.0).unwrap();
    let (new, old) = (folder.0.join("new"), folder.0.join("old"));
    fs::write(&old, b"old").unwrap();
    let script = r#"trap '' XFSZ; ulimit -f 0; exec "$0" "$@""#;
    for (file, words) in [
        (&new, &["demo"][..]),
        (&new, &["canonical", image.path(), "-o"]),
        (&old, &["canonical", image.path(), "--force", "-o"]),
    ] {
        let mut bash = Command::new("bash");
        bash.args(["-c", script, env!("CARGO_BIN_EXE_ventolaire")]).args(words).arg(file);
        let Ok(output) = bash.output() else { return };
        let message = format!("cannot write {}: File too large (os error 27)", file.display());
        assert_eq!(failed(output), message);
        assert_eq!(fs::read_dir(&folder.0).unwrap().count(), 1);
        assert_eq!(fs::read(&old).unwrap(), b"old");
    }
    fs::remove_file(old).unwrap();
}
