//! Tables built to make the check take long: as full as the format allows, with
//! what costs most in one rule or another. All are accepted but the one that
//! breaks its rule at the last record.

use crate::tables::{accepted, letters, Case, Input};
use data::image::{Text, Tree};

pub const CASES: &[Case] = &[
    Case {
        name: "hostile-names",
        about: "4,096 names of 255 bytes over shared text, alike but for the last byte",
        build: || accepted(&names(4_096)),
    },
    Case {
        name: "hostile-bodies",
        about: "4,095 symbolic links with bodies of 4,095 bytes over shared text",
        build: || accepted(&bodies()),
    },
    Case {
        name: "hostile-bodies-names",
        about: "the same over less text, and 1,468 names of 255 bytes over it",
        build: || accepted(&bodies_and_names()),
    },
    Case {
        name: "hostile-bodies-zero",
        about: "as hostile-bodies, and a zero byte that is in no body",
        build: || accepted(&bodies_and_zero()),
    },
    Case {
        name: "hostile-bodies-zeros",
        about: "4,095 symbolic links with bodies of 300 bytes over shared text, between zero bytes",
        build: || accepted(&bodies_between_zeros()),
    },
    Case {
        name: "hostile-names-slash",
        about: "as hostile-names, and a slash that is in no name",
        build: || accepted(&names_and_slash()),
    },
    Case {
        name: "hostile-names-slashes",
        about: "4,096 names of 255 bytes over shared text, a slash between any two",
        build: || accepted(&names_between_slashes(4_096, NAME)),
    },
    Case {
        name: "hostile-short-names",
        about: "4,096 names of 31 bytes over shared text, a slash between any two",
        build: || accepted(&names_between_slashes(4_096, 31)),
    },
    Case {
        name: "hostile-short-bodies",
        about: "4,095 symbolic links with bodies of 23 bytes over shared text, \
            a zero byte between any two",
        build: || accepted(&bodies_before_zeros(4_095, 681, 23)),
    },
    Case {
        name: "hostile-some-names",
        about: "1,500 names of 80 bytes over shared text, a slash between any two, \
            and 42,800 letters",
        build: || accepted(&some_names()),
    },
    Case {
        name: "hostile-some-bodies",
        about: "1,500 symbolic links with bodies of 80 bytes over shared text, \
            a zero byte between any two",
        build: || accepted(&bodies_before_zeros(1_500, 586, 80)),
    },
    Case {
        name: "hostile-points",
        about: "255 mount points at the end of a chain of 4,096 directories",
        build: || accepted(&points(NAMED)),
    },
    Case {
        name: "hostile-one-point",
        about: "255 mounts, each in the one before, on the last of 4,096 directories",
        build: || accepted(&one_point(254)),
    },
    Case {
        name: "hostile-clash",
        about: "the same, the last two in the same mount: refused at the last",
        build: || Input { expected: [6, 255, 0, 0, 0, 0], ..accepted(&one_point(253)) },
    },
    Case {
        name: "hostile-one-point-alone",
        about: "255 mounts, each in the one before, on one of 2 directories, and nothing else",
        build: || accepted(&one_point_alone()),
    },
    Case {
        name: "hostile-magic",
        about: "3,840 magic links to the innermost of 256 nested roots, by every mount",
        build: || accepted(&magic_links(256)),
    },
    Case {
        name: "hostile-magic-outer",
        about: "the same, by the mount of the outermost root",
        build: || accepted(&magic_links(1)),
    },
    Case {
        name: "hostile-magic-names",
        about: "as hostile-magic, and 1,756 names of 255 bytes over shared text",
        build: || accepted(&magic_links_and_names(256)),
    },
    Case {
        name: "hostile-magic-outer-names",
        about: "as hostile-magic-outer, and the same names",
        build: || accepted(&magic_links_and_names(1)),
    },
];

const NAME: usize = 255;
const BODY: usize = 4_095;

/// So many entries: 126 names, each with text of its own, in each of their directories.
/// More text does not fit beside 4,096 entries.
pub fn names(count: usize) -> Tree {
    let (mut tree, top) = Tree::mounted();
    let file = tree.file();
    let mut directories = vec![top];
    directories.extend((1..count.div_ceil(126)).map(|_| tree.directory(top)));
    let names: Vec<Text> = (0..126)
        .map(|i| {
            let mut name = [b'n'; NAME];
            name[NAME - 1] = b'0' + i;
            tree.text(&name)
        })
        .collect();
    for i in 0..count {
        tree.name_again(directories[i / names.len()], names[i % names.len()].clone(), file);
    }
    tree
}

fn names_and_slash() -> Tree {
    let mut tree = names(4_096);
    tree.text(b"/");
    tree
}

/// Alike but for the last two bytes; as many as the text has room for, in as many
/// directories as make `entries` entries.
pub fn names_between_slashes(entries: usize, length: usize) -> Tree {
    let (mut tree, top) = Tree::mounted();
    let file = tree.file();
    let count = 32_200 / (length + 1);
    let mut directories = vec![top];
    directories.extend((1..=entries / count).map(|_| tree.directory(top)));
    let names: Vec<Text> = (0..count)
        .map(|i| {
            let mut name = vec![b'n'; length];
            name[length - 2] = b'0' + (i / 64) as u8;
            name[length - 1] = b'0' + (i % 64) as u8;
            let name = tree.text(&name);
            tree.text(b"/");
            name
        })
        .collect();
    for i in 0..entries {
        tree.name_again(directories[i / names.len()], names[i % names.len()].clone(), file);
    }
    tree
}

fn bodies_and_zero() -> Tree {
    let (mut tree, _) = Tree::mounted();
    let all = tree.text(&letters(16_355));
    tree.text(&[0]);
    links(&mut tree, &all);
    tree
}

/// So many stretches of text, a zero byte after each.
fn before_zeros(tree: &mut Tree, count: usize, length: usize) -> Vec<Text> {
    let stretch = |_| {
        let stretch = tree.text(&letters(length));
        tree.text(&[0]);
        stretch
    };
    (0..count).map(stretch).collect()
}

/// Each body begins at the first byte after a zero byte, or some bytes further.
fn bodies_between_zeros() -> Tree {
    let (mut tree, _) = Tree::mounted();
    let stretches = before_zeros(&mut tree, 50, 326);
    for i in 0..4_095 {
        tree.link(stretches[i % stretches.len()].part(i % 27, 300));
    }
    tree
}

/// So many links, with so many bodies of that length, each before a zero byte.
pub fn bodies_before_zeros(links: usize, bodies: usize, length: usize) -> Tree {
    let (mut tree, _) = Tree::mounted();
    let bodies = before_zeros(&mut tree, bodies, length);
    for i in 0..links {
        tree.link(bodies[i % bodies.len()].clone());
    }
    tree
}

/// 126 names in each of 12 directories, and letters for the rest of the image.
fn some_names() -> Tree {
    let (mut tree, top) = Tree::mounted();
    let file = tree.file();
    let mut directories = vec![top];
    directories.extend((1..12).map(|_| tree.directory(top)));
    let names: Vec<Text> = (0..126)
        .map(|i| {
            let mut name = [b'n'; 80];
            name[79] = b'0' + i;
            let name = tree.text(&name);
            tree.text(b"/");
            name
        })
        .collect();
    tree.text(&letters(42_800));
    for i in 0..1_500 {
        tree.name_again(directories[i / names.len()], names[i % names.len()].clone(), file);
    }
    tree
}

/// As many links as there may be nodes beside the top, and text for the rest.
pub fn bodies() -> Tree {
    let (mut tree, _) = Tree::mounted();
    let all = tree.text(&letters(16_356));
    links(&mut tree, &all);
    tree
}

/// The names are in one directory, of random letters and thus in no order.
fn bodies_and_names() -> Tree {
    let (mut tree, top) = Tree::mounted();
    let all = tree.text(&letters(4_612));
    links(&mut tree, &all);
    for i in 0..1_468 {
        tree.name_again(top, all.part(2 * i, NAME), 1);
    }
    tree
}

fn links(tree: &mut Tree, all: &Text) {
    for i in 0..4_095 {
        tree.link(all.part(3 * i % (all.len() - BODY + 1), BODY));
    }
}

/// As many of the chain's directories as can be named beside 256 mounts.
const NAMED: usize = 1_789;

/// The chain of 4,096 directories, so many of them named.
pub fn chain(named: usize) -> (Tree, Vec<usize>) {
    let (mut tree, top) = Tree::mounted();
    let name = tree.text(b"d");
    let chain = tree.chain(top, &name, 4_095, named);
    (tree, chain)
}

pub fn points(named: usize) -> Tree {
    let (mut tree, chain) = chain(named);
    for &point in chain.iter().rev().take(255) {
        tree.mount(0, 0, point);
    }
    tree
}

/// `last` is the parent of the last mount.
fn one_point(last: usize) -> Tree {
    let (mut tree, chain) = chain(NAMED);
    let point = chain[chain.len() - 1];
    for parent in (0..254).chain([last]) {
        tree.mount(0, parent, point);
    }
    tree
}

fn one_point_alone() -> Tree {
    let (mut tree, top) = Tree::mounted();
    let point = tree.directory(top);
    for parent in 0..255 {
        tree.mount(top, parent, point);
    }
    tree
}

/// A chain of 256 directories, each the root of a mount, and links to the last
/// of them by the first `mounts` mounts in turn.
fn magic_links(mounts: usize) -> Tree {
    let (mut tree, mut directory) = Tree::mounted();
    for _ in 1..256 {
        directory = tree.directory(directory);
        tree.mount(directory, 0, directory);
    }
    for i in 0..3_840 {
        tree.magic(i % mounts, directory);
    }
    tree
}

/// Up to seven names in each directory: the same text from each of its first
/// bytes on, so that each is alike the one before but for the last few bytes.
fn magic_links_and_names(mounts: usize) -> Tree {
    let mut tree = magic_links(mounts);
    let all = tree.text(&[[b'n'; 254].as_slice(), &[b'x'; 7]].concat());
    for i in 0..1_756 {
        let magic_link = 256;
        tree.name_again(i / 7, all.part(i % 7, NAME), magic_link);
    }
    tree
}
