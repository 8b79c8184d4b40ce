//! Manifests built to images, and printed of images.

mod common;

use common::{answer, answer_to, error, failed, image, run, shared_image, Named};
use std::fs;
use ventolaire::bench_tree::IMAGE;
use ventolaire::Table;

const BENCH_TREE: &str = include_str!("../../examples/bench_tree.manifest");
const PAGE: &str = include_str!("../../docs/MANIFEST.md");

/// The image of a manifest.
fn built(manifest: &[u8]) -> Vec<u8> {
    let output = run(manifest, ["build", "-"]);
    assert_eq!(String::from_utf8_lossy(&output.stderr), "");
    assert_eq!(output.status.code(), Some(0));
    output.stdout
}

/// The manifest of an image, and what is told of it.
fn shown(image: &[u8]) -> (String, String) {
    let output = run(image, ["show", "-", "--manifest"]);
    assert_eq!(output.status.code(), Some(0));
    (String::from_utf8(output.stdout).unwrap(), String::from_utf8(output.stderr).unwrap())
}

#[test]
fn a_manifest_is_built_to_a_file() {
    let (manifest, new) = (Named::file(BENCH_TREE.as_bytes()), Named::new());
    let told = format!("{}: 12 nodes, 10 entries, 2 mounts; 316 bytes\n", new.path());
    assert_eq!(answer(["build", manifest.path(), "-o", new.path()]), (0, told.clone()));
    assert_eq!(fs::read(&new.0).unwrap(), built(BENCH_TREE.as_bytes()));
    assert_eq!(answer(["check", new.path()]), (0, "accepted\n".into()));

    // One that is there is left alone.
    fs::write(&new.0, "own").unwrap();
    let message = error(["build", manifest.path(), "-o", new.path()]);
    let wanted = format!("cannot write {}: ", new.path());
    assert!(message.starts_with(&wanted) && message.ends_with("; --force replaces a file"));
    assert_eq!(fs::read(&new.0).unwrap(), b"own");
    assert_eq!(answer(["build", manifest.path(), "-o", new.path(), "--force"]), (0, told));
    assert_eq!(fs::read(&new.0).unwrap().len(), 316);

    let json = format!(
        "{{\"file\":\"{}\",\"nodes\":12,\"entries\":10,\"mounts\":2,\"bytes\":316}}\n",
        new.path()
    );
    let again = ["build", manifest.path(), "--output", new.path(), "--force", "--json"];
    assert_eq!(answer(again), (0, json));
}

/// The bench tree's answers do not depend on its numbers but for the places.
#[test]
fn the_bench_tree_is_described() {
    let image = Named::file(&built(BENCH_TREE.as_bytes()));
    let answers = image.resolve(&["lab/cal/tare", "lab/pool/run", "lab/cal/abs", "lab/cal/loop"]);
    let lines = "lab/cal/tare\t0:7; 3 components, 0 links\n\
        lab/pool/run\t1:11; 3 components, 0 links\n\
        lab/cal/abs\t0:7; 6 components, 1 link\n\
        lab/cal/loop\tELOOP (40); 43 components, 40 links\n";
    assert_eq!(answers, (1, lines.into()));
}

/// The tree of the hand-made image is the one that the example describes.
#[test]
fn the_example_has_the_bench_tree() {
    let (manifest, told) = shown(IMAGE);
    let lost = "ventolaire: not kept: the order of names and bodies in the text\n\
        ventolaire: not kept: the numbers of nodes and mounts\n";
    assert_eq!(told, lost);
    assert_eq!(built(manifest.as_bytes()), built(BENCH_TREE.as_bytes()));
}

#[test]
fn what_is_printed_builds_the_same_image() {
    let texts = [
        BENCH_TREE,
        "",
        "dir /a\ndir /a/b\nfile '/a/b/c d'\nlink /l '#x'\nhard /m /l\n",
        "dir t:\ndir n: in /\nfile lost:\nmagic /f lost:\nmagic /g n: in m\nmount / t:/p in x as m\n\
            dir t:/p\nmount t: /q as x\ndir /q\nroot /",
        "link /a \\xff\\n\\u202e\nfile /caf\u{e9}\nfile '/it\\'s'\n",
    ];
    for text in texts {
        let image = built(text.as_bytes());
        let (manifest, told) = shown(&image);
        assert_eq!(told, "", "{text}");
        assert_eq!(built(manifest.as_bytes()), image, "{text}");
    }
}

/// The same tree with its text shared, and with gaps in it, and with a directory that has no name.
#[test]
fn what_is_lost_is_told() {
    let ordered = image(&[b"ab", b"b"], b"b");
    let (manifest, told) = shown(&ordered);
    assert_eq!(manifest, "link  /ab b\nhard  /b /ab\n");
    assert_eq!(told, "");

    let mut shared = ordered[..ordered.len() - 2].to_vec();
    let (body, name) = (20 + 12 + 4, 20 + 24 + 8 + 8);
    (shared[body], shared[name], shared[12], shared[16]) = (1, 1, 2, shared[16] - 2);
    let lost = "ventolaire: not kept: sharing of 2 bytes in the text\n";
    assert_eq!(shown(&shared), (manifest.clone(), lost.into()));

    let mut with_gap = [&ordered[..], b"\0"].concat();
    (with_gap[12], with_gap[16]) = (5, with_gap[16] + 1);
    let lost = "ventolaire: not kept: gaps of 1 byte in the text\n";
    assert_eq!(shown(&with_gap), (manifest, lost.into()));
}

/// The bench tree's text is in another order; with a byte more at its end, both are told.
#[test]
fn all_that_is_lost_is_told() {
    let mut image = [IMAGE, b"\0"].concat();
    let (text, total) = (image[12] + 1, u16::from_le_bytes([image[16], image[17]]) + 1);
    image[12] = text;
    image[16..18].copy_from_slice(&total.to_le_bytes());
    let lost = "ventolaire: not kept: gaps of 1 byte in the text\n\
        ventolaire: not kept: the order of names and bodies in the text\n\
        ventolaire: not kept: the numbers of nodes and mounts\n";
    assert_eq!(shown(&image).1, lost);
}

/// Two tops before mount 0's, and a directory that has no name: node 2, whose parent is node 1.
#[test]
fn directories_without_a_name_are_kept() {
    let mut image = b"TOC1\x03\0\x01\0\0\0\0\0\0\0\0\0".to_vec();
    image.extend((20 + 3 * 12 + 8_u32).to_le_bytes());
    for parent in [0, 1, 1] {
        image.extend([1, 0, parent, 0, 0, 0, 0, 0, 0, 0, 0, 0]);
    }
    image.extend([1, 0, 0, 0, 1, 0, 0, 0]);
    assert!(Table::new(&image).is_ok());
    let lost = "ventolaire: not kept: the numbers of nodes and mounts\n\
        ventolaire: kept: 1 directory without a name\n";
    assert_eq!(shown(&image), ("dir   dir1: in /\ndir   tree1:\n".into(), lost.into()));
}

#[test]
fn what_is_too_long_without_sharing_has_no_manifest() {
    let why = "without sharing in its text it has over 65,536 bytes";
    let message = failed(run(&shared_image(), ["show", "-", "--manifest"]));
    assert_eq!(message, format!("cannot show standard input as a manifest: {why}"));
}

#[test]
fn a_line_that_is_none_is_told() {
    for (manifest, wrong) in [
        ("dir lab\n", "line 1, column 5: expected a path, /.. or TREE:/.., found lab"),
        (
            "\ndri /lab",
            "line 2, column 1: expected dir, file, link, magic, hard, mount or root, found dri",
        ),
        ("link /a # b", "line 1, column 9: expected a link's body, found a comment"),
        ("file /a\nfile /a", "line 2, column 1: /a: it is described already, in line 1, column 1"),
        ("file /a/b", "line 1, column 1: /a/b: no directory /a is described"),
        (
            "dir /..",
            "line 1, column 1: /..: rule 5 broken by entry 0: its name is \"..\" (RULES 4.5c)",
        ),
    ] {
        let message = failed(run(manifest.as_bytes(), ["build", "-"]));
        assert_eq!(message, format!("cannot build standard input: {wrong}"));
    }
    let (bad, new) = (Named::file(b"dir lab\n"), Named::new());
    let message = error(["build", bad.path(), "-o", new.path()]);
    assert!(message.starts_with(&format!("cannot build {}: line 1, ", bad.path())), "{message}");
    assert!(!new.0.exists());
}

/// The page's own example, and what it says of refusals.
#[test]
fn the_page_is_true() {
    let example: String = PAGE
        .lines()
        .skip_while(|line| !line.starts_with("    # A laboratory"))
        .take_while(|line| line.starts_with("    "))
        .map(|line| format!("{}\n", &line[4..]))
        .collect();
    assert_eq!(example.lines().count(), 12);
    let image = built(example.as_bytes());
    assert_eq!(shown(&image).1, "");
    let told = [
        "dir /lab\nlink /lab/up\n",
        "dir /lab\n\n\n\n\n\nfile /lba/run",
        "dir /lab\ndir /a\nmount /lab /a as x\ndir d:\nmount d: /a in x",
    ];
    for manifest in told {
        let message = failed(run(manifest.as_bytes(), ["build", "-"]));
        let message = message.strip_prefix("cannot build standard input: ").unwrap();
        assert!(PAGE.contains(&format!("    {message}\n")), "{message}");
    }
}

#[test]
fn wrong_usage_is_told() {
    for (arguments, wrong) in [
        (&["build"][..], "build wants MANIFEST"),
        (&["build", "a", "b"], "build has no use for b"),
        (&["build", "a", "--force"], "--force wants --output"),
        (&["build", "a", "--json"], "--json wants --output"),
        (&["build", "a", "-o", "-"], "--output wants a file; write ./- for one of that name"),
        (&["build", "a", "--mounts"], "build has no option --mounts"),
        (&["show", "a", "--manifest", "--dot"], "--manifest and --dot exclude each other"),
        (&["show", "a", "--manifest", "--json"], "--manifest and --json exclude each other"),
    ] {
        assert_eq!(error(arguments), wrong);
    }
    let message = error(["build", "/nowhere/at/all"]);
    assert!(message.starts_with("cannot read /nowhere/at/all: "), "{message}");
}

/// As pipes are used.
#[test]
fn a_manifest_is_piped() {
    let (_, told) = answer_to(BENCH_TREE.as_bytes(), ["build", "-", "-o", Named::new().path()]);
    assert!(told.ends_with(": 12 nodes, 10 entries, 2 mounts; 316 bytes\n"), "{told}");
}
