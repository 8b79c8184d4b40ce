//! The numbers of nodes and mounts, worked out by hand from the documentation.

use super::build;
use crate::*;

/// Nodes and mounts in words.
fn listed(image: &[u8]) -> Vec<String> {
    let table = Table::new(image).unwrap();
    let node = |(number, node): (u64, Node)| match node {
        Node::Directory { parent, entries } => {
            let entry = |entry: Entry| format!(" {}={}", entry.name.escape_ascii(), entry.node);
            format!("{number} in {parent}:{}", entries.map(entry).collect::<String>())
        }
        Node::File {} => format!("{number} file"),
        Node::Link { body } => format!("{number} -> {}", body.escape_ascii()),
        Node::MagicLink { target } => format!("{number} => {target}"),
    };
    let mount = |(number, mount): (u64, Mount)| {
        format!("mount {number}: {} on ({},{})", mount.root, mount.parent, mount.point)
    };
    table.nodes().map(node).chain(table.mounts().map(mount)).collect()
}

/// Two second trees, one shown twice; a bind mount; a mount in a mount; a directory and a file
/// without a name; trees that no mount shows.
const TREE: &str = "
    mount one: /b as m
    dir   /b
    dir   /a
    file  /a/z
    dir   /a/y
    link  /c body
    magic /d s: in bind
    hard  /e one:/j
    dir   zz:
    dir   d10:
    dir   d9:
    file  d9:/f
    dir   one:
    dir   one:/k
    file  one:/j
    dir   two:
    file  two:/t
    dir   s: in /a
    file  s:/q
    dir   r: in /a
    file  lost:
    link  lone: x
    mount two: one:/k in m
    mount /a /a/y as bind
    mount two: /a
";

const LISTED: [&str; 26] = [
    // /: its names, and in /a the directories without a name behind those with one.
    "0 in 0: a=1 b=7 c=8 d=9 e=10",
    "1 in 0: y=2 z=3",
    "2 in 1:",
    "3 file",
    // r: and s:
    "4 in 1:",
    "5 in 1: q=6",
    "6 file",
    "7 in 0:",
    "8 -> body",
    "9 => (2,5)",
    // one:/j is in the main tree too.
    "10 file",
    // two:, shown by mount 1
    "11 in 11: t=12",
    "12 file",
    // one:, shown by mount 3
    "13 in 13: j=10 k=14",
    "14 in 13:",
    // d9:, zz: and d10:, by none
    "15 in 15: f=16",
    "16 file",
    "17 in 17:",
    "18 in 18:",
    // lone: and lost:
    "19 -> x",
    "20 file",
    "mount 0: 0 on (0,0)",
    "mount 1: 11 on (0,1)",
    "mount 2: 1 on (0,2)",
    "mount 3: 13 on (0,7)",
    "mount 4: 11 on (3,14)",
];

#[test]
fn numbers_run_down_the_trees() {
    let image = build(TREE);
    assert_eq!(listed(&image), LISTED);
    // In any order, and whatever trees that are shown and mounts are named.
    let lines: Vec<&str> = TREE.lines().collect();
    for by in 0..lines.len() {
        let turned = [&lines[by..], &lines[..by]].concat();
        assert_eq!(build(turned.join("\n")), image);
        assert_eq!(build(turned.into_iter().rev().collect::<Vec<_>>().join("\n")), image);
    }
    let renamed = TREE.replace(" one:", " z-1:").replace("two:", "1:").replace(" m\n", " 0\n");
    assert_eq!(build(renamed), image);
    // The order of the others' names alone counts.
    let renamed = TREE.replace("d9:", "y:").replace("d10:", "aaa:").replace("lost:", "lonf:");
    assert_eq!(build(renamed), image);
    assert_ne!(build(TREE.replace("d9:", "d11:")), image);
}

/// The tree that mount 0 shows comes first, whichever that is, and what it is named is not told.
#[test]
fn the_tree_of_mount_0_comes_first() {
    let image = build("file /f\ndir d:\ndir d:/a\nroot d:/a\n");
    let expected = ["0 in 0: a=1", "1 in 0:", "2 in 2: f=3", "3 file", "mount 0: 1 on (0,1)"];
    assert_eq!(listed(&image), expected);
    assert_eq!(build("file d:/f\ndir d:\ndir /a\nroot /a\n"), image);
    let manifest = Manifest::try_from(&Table::new(&image).unwrap()).unwrap();
    assert_eq!(manifest.to_string(), "dir   /a\ndir   tree1:\nfile  tree1:/f\nroot  /a\n");
    assert_eq!(manifest.build().unwrap(), image);
    // Even if / is no directory, or has a parent.
    for text in ["file /\ndir d:\nroot d:", "dir / in d:\ndir d:", "dir / in /", "dir d: in d:"] {
        let image = build(text);
        let manifest = Manifest::try_from(&Table::new(&image).unwrap()).unwrap();
        assert_eq!(manifest.build().unwrap(), image, "{manifest}");
    }
}

/// A directory that is its own parent is a top like others.
#[test]
fn tops_may_name_themselves_as_parents() {
    let text = "dir /p\ndir /q\ndir a: in a:\ndir b:\nmount a: /p\nmount b: /q\n";
    assert_eq!(build(text), build(text.replace(" in a:", "")));
}

/// A directory that has a name besides the one that it is described by comes where the first of
/// them is.
#[test]
fn second_names_count_as_first_ones() {
    let image = build("dir /b\nfile /b/x\nhard /a /b\nfile /c/y\ndir /c\nhard /0 /c/y");
    let expected = ["0 in 0: 0=1 a=2 b=2 c=4", "1 file", "2 in 0: x=3", "3 file", "4 in 0: y=1"];
    assert_eq!(listed(&image)[..5], expected);
    assert_eq!(build("dir /a\nfile /a/x\nhard /b /a\nfile /0\ndir /c\nhard /c/y /0"), image);
    assert_eq!(
        build(
            "dir n: in /\nfile n:/x\nhard /a n:\nhard /b n:\nfile f:\ndir /c\n\
                      hard /c/y f:\nhard /0 f:"
        ),
        image
    );
}
