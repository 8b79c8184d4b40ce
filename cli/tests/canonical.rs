//! The one image of a tree, written and told from others.
//!
//! Files to be written have names in the tests' own folder alone: a program that is wrong here
//! may replace what it is given.

mod common;

use common::{answer, answer_to, error, image, program, shared_image, Named};
use std::fs::{self, Permissions};
use std::os::unix::fs::{symlink, PermissionsExt};
use std::process::Command;
use ventolaire::bench_tree::IMAGE;

/// The bench tree's names in the order of its entries, then its bodies in the order of its nodes.
const TEXT: &[u8] = b"labcalpoolabsfdloopttareuprun../../lab/cal/tarelooptare/";

/// What `canonical` prints of an image.
fn canonical(image: &Named) -> Vec<u8> {
    let output = program().args(["canonical", image.path()]).output().unwrap();
    assert_eq!((output.status.code(), output.stderr), (Some(0), Vec::new()));
    output.stdout
}

fn shown(image: &Named) -> (i32, String) {
    answer(["show", image.path()])
}

#[test]
fn an_image_is_written_in_order() {
    let given = Named::file(IMAGE);
    let ordered = canonical(&given);
    assert_eq!((ordered.len(), &ordered[316 - 56..]), (316, TEXT));
    // Header and mounts are as they were, and so is the tree.
    let mounts = 20 + 12 * 12..20 + 12 * 12 + 16;
    assert_eq!((&ordered[..20], &ordered[mounts.clone()]), (&IMAGE[..20], &IMAGE[mounts]));
    let again = Named::file(&ordered);
    assert_eq!(shown(&again), shown(&given));
    assert_eq!(canonical(&again), ordered);
    assert_eq!(answer(["canonical", again.path(), "--check"]), (0, "canonical\n".into()));
    let json = "{\"canonical\":true,\"bytes\":316}\n";
    assert_eq!(answer(["canonical", again.path(), "--check", "--json"]), (0, json.into()));
}

/// The same tree with its text in other order, shared, and with a gap behind it.
#[test]
fn one_tree_has_one_image() {
    let ordered = image(&[b"ab", b"b"], b"b");
    assert_eq!(&ordered[ordered.len() - 4..], b"abbb");
    assert_eq!(answer_to(&ordered, ["canonical", "-", "--check"]), (0, "canonical\n".into()));

    // The name of entry 1 and the body from byte 1 of "ab", and no other text.
    let mut shared = ordered[..ordered.len() - 2].to_vec();
    let (body, name) = (20 + 12 + 4, 20 + 24 + 8 + 8);
    assert_eq!((shared[body], shared[name]), (3, 2));
    (shared[body], shared[name], shared[12], shared[16]) = (1, 1, 2, shared[16] - 2);
    let reason = "the name of entry 1 begins at byte 1 of the text, not at 2";
    is_another(&shared, reason, &ordered);

    let mut only_body = ordered.clone();
    only_body[body] = 2;
    is_another(&only_body, "the body of node 1 begins at byte 2 of the text, not at 3", &ordered);

    let mut with_gap = [&ordered[..], b"\0"].concat();
    (with_gap[12], with_gap[16]) = (5, with_gap[16] + 1);
    is_another(&with_gap, "its text has 5 bytes, not 4", &ordered);
}

/// That an image is told from the one of its tree, and written as that.
fn is_another(image: &[u8], reason: &str, ordered: &[u8]) {
    let line = format!("not canonical: {reason}\n");
    assert_eq!(answer_to(image, ["canonical", "-", "--check"]), (1, line));
    let bytes = ordered.len();
    let json = format!("{{\"canonical\":false,\"reason\":\"{reason}\",\"bytes\":{bytes}}}\n");
    assert_eq!(answer_to(image, ["canonical", "-", "--check", "--json"]), (1, json));
    assert_eq!(canonical(&Named::file(image)), ordered);
}

#[test]
fn a_refused_image_has_none() {
    let mut image = IMAGE.to_vec();
    image[20 + 12 * 3] = 9;
    let (bad, new) = (Named::file(&image), Named::new());
    let why = "rule 4 broken by node 3: its kind is 9, not 1 to 4 (RULES 4.4a)";
    assert_eq!(answer(["canonical", bad.path(), "--check"]), (1, format!("{why}\n")));
    let json = r#"{"rule":4,"clause":"4.4a","node":3,"reason":"its kind is 9, not 1 to 4"}"#;
    let verdict = format!("{{\"canonical\":false,\"broken\":{json}}}\n");
    assert_eq!(answer(["canonical", bad.path(), "--check", "--json"]), (1, verdict));
    let message = format!("cannot write {} anew: {why}", bad.path());
    assert_eq!(error(["canonical", bad.path()]), message);
    assert_eq!(error(["canonical", bad.path(), "-o", new.path()]), message);
    assert!(!new.0.exists());
}

#[test]
fn an_image_may_be_too_long_without_sharing() {
    let image = Named::file(&shared_image());
    assert_eq!(answer(["check", image.path()]), (0, "accepted\n".into()));
    let why = "without sharing in its text it has over 65,536 bytes";
    let line = format!("not canonical: {why}\n");
    assert_eq!(answer(["canonical", image.path(), "--check"]), (1, line));
    let json = format!("{{\"canonical\":false,\"reason\":\"{why}\"}}\n");
    assert_eq!(answer(["canonical", image.path(), "--check", "--json"]), (1, json));
    let message = format!("cannot write {} anew: {why}", image.path());
    assert_eq!(error(["canonical", image.path()]), message);
}

/// A folder of its own, so that what is left in it is seen.
struct Folder(Named);

impl Folder {
    fn new() -> Folder {
        let folder = Named::new();
        fs::create_dir(&folder.0).unwrap();
        Folder(folder)
    }

    fn file(&self, name: &str) -> String {
        format!("{}/{name}", self.0.path())
    }

    /// Its files, in order.
    fn files(&self) -> Vec<String> {
        let names = fs::read_dir(&self.0 .0).unwrap();
        let names = names.map(|entry| entry.unwrap().file_name().into_string().unwrap());
        let mut names: Vec<String> = names.collect();
        names.sort();
        names
    }
}

impl Drop for Folder {
    fn drop(&mut self) {
        let _ = fs::remove_dir_all(&self.0 .0);
    }
}

#[test]
fn a_file_is_written_or_replaced_when_asked() {
    let (given, folder) = (Named::file(IMAGE), Folder::new());
    let (ordered, file) = (canonical(&given), folder.file("new"));
    assert_eq!(answer(["canonical", given.path(), "-o", &file]), (0, String::new()));
    assert_eq!(fs::read(&file).unwrap(), ordered);

    fs::write(&file, b"old").unwrap();
    fs::set_permissions(&file, Permissions::from_mode(0o640)).unwrap();
    let there = "File exists (os error 17); --force replaces a file";
    let message = format!("cannot write {file}: {there}");
    assert_eq!(error(["canonical", given.path(), "-o", &file]), message);
    assert_eq!(fs::read(&file).unwrap(), b"old");
    let output = format!("--output={file}");
    assert_eq!(answer(["canonical", given.path(), &output, "--force"]), (0, String::new()));
    assert_eq!(fs::read(&file).unwrap(), ordered);
    assert_eq!(fs::metadata(&file).unwrap().permissions().mode() & 0o777, 0o640);

    // In its own place, and under a name that is not there yet.
    fs::write(&file, IMAGE).unwrap();
    assert_eq!(answer(["canonical", &file, "-o", &file, "--force"]), (0, String::new()));
    assert_eq!(fs::read(&file).unwrap(), ordered);
    let other = folder.file("other");
    assert_eq!(answer(["canonical", &file, "-o", &other, "--force"]), (0, String::new()));
    assert_eq!(fs::read(&other).unwrap(), ordered);
    assert_eq!(folder.files(), ["new", "other"]);
}

#[test]
fn what_is_no_file_is_left_alone() {
    let (given, folder) = (Named::file(IMAGE), Folder::new());
    let [file, link, lost, inner, fifo] =
        ["file", "link", "lost", "inner", "fifo"].map(|name| folder.file(name));
    fs::write(&file, b"old").unwrap();
    symlink(&file, &link).unwrap();
    symlink(folder.file("none"), &lost).unwrap();
    fs::create_dir(&inner).unwrap();
    assert!(Command::new("mkfifo").arg(&fifo).status().unwrap().success());
    for file in [&link, &lost, &inner, &fifo] {
        let message = format!("cannot write {file}: File exists (os error 17)");
        assert_eq!(error(["canonical", given.path(), "-o", file]), message);
        let message = format!("cannot write {file}: it is no regular file");
        assert_eq!(error(["canonical", given.path(), "-o", file, "--force"]), message);
    }
    let nowhere = folder.file("none/file");
    let message = format!("cannot write {nowhere}: No such file or directory (os error 2)");
    for force in [&[][..], &["--force"]] {
        let words = ["canonical", given.path(), "-o", &nowhere];
        assert_eq!(error(words.iter().chain(force)), message);
    }
    assert_eq!(fs::read(&file).unwrap(), b"old");
    assert_eq!(folder.files(), ["fifo", "file", "inner", "link", "lost"]);
}

/// A name that a stopped run has left is no hindrance, and stays.
#[test]
fn a_temporary_file_of_another_run_is_left_alone() {
    let (given, folder) = (Named::file(IMAGE), Folder::new());
    let script = r#"echo theirs >"$2/.ventolaire-$$-0.tmp"; exec "$0" canonical "$1" -o "$2/new""#;
    let program = env!("CARGO_BIN_EXE_ventolaire");
    let mut sh = Command::new("sh");
    let status = sh.args(["-c", script, program, given.path(), folder.0.path()]).status();
    assert_eq!(status.unwrap().code(), Some(0));
    let files = folder.files();
    assert_eq!((files.len(), files[1].as_str()), (2, "new"));
    assert_eq!(fs::read(folder.file(&files[0])).unwrap(), b"theirs\n");
}

/// Where there is util-linux's `script`, which lends a terminal.
#[test]
fn no_image_is_printed_to_a_terminal() {
    let (given, log) = (Named::file(IMAGE), Named::new());
    let command = format!("{} canonical {}", env!("CARGO_BIN_EXE_ventolaire"), given.path());
    let mut script = Command::new("script");
    let Ok(output) = script.args(["-qec", &command, log.path()]).output() else { return };
    let message = "an image is not printed to a terminal; give --output FILE, or a pipe";
    let printed = String::from_utf8(output.stdout).unwrap();
    assert_eq!(printed.trim_end(), format!("ventolaire: {message}"));
    assert_eq!(output.status.code(), Some(2));
}
