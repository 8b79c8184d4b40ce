//! How the cost of one call grows with its input, one measure of it at a time.

use crate::measure::Measured;
use crate::tables::{accepted, found, Input};
use crate::{grouped, optional, row};
use data::image::Tree;
use std::error::Error;

pub struct Growth {
    pub name: &'static str,
    pub about: &'static str,
    pub sizes: &'static [usize],
    build: fn(usize) -> Input,
}

pub const GROWTHS: &[Growth] = &[
    Growth {
        name: "walk-components",
        about: "a walk of SIZE components, down a chain of directories",
        sizes: &[1, 10, 100, 1_000, 2_000],
        build: walk_components,
    },
    Growth {
        name: "walk-entries",
        about: "one component, the middle one of SIZE names in the directory",
        sizes: &[1, 10, 12, 13, 100, 1_000, 4_000],
        build: walk_entries,
    },
    Growth {
        name: "walk-mounts",
        about: "one component, into the last of SIZE mounts in mount 0",
        sizes: &[1, 4, 16, 64, 255],
        build: walk_mounts,
    },
    Growth {
        name: "walk-links",
        about: "a walk through SIZE links to \".\", then to a file",
        sizes: &[0, 5, 10, 20, 40],
        build: walk_links,
    },
    Growth {
        name: "check-components",
        about: "the check of a chain of SIZE directories",
        sizes: &[1, 10, 100, 1_000, 2_000],
        build: check_components,
    },
    Growth {
        name: "check-entries",
        about: "the check of one directory with SIZE names",
        sizes: &[1, 10, 100, 1_000, 4_000],
        build: check_entries,
    },
    Growth {
        name: "check-long-names",
        about: "the check of one directory with SIZE names of 100 bytes",
        sizes: &[1, 10, 30, 100, 500],
        build: check_long_names,
    },
    Growth {
        name: "check-mixed",
        about: "the check of one directory with SIZE names of 8 bytes, \
            and an absolute link for each four",
        sizes: &[1, 10, 30, 100, 1_000],
        build: check_mixed,
    },
    Growth {
        name: "check-mounts",
        about: "the check of SIZE mounts in mount 0",
        sizes: &[1, 4, 16, 64, 255],
        build: check_mounts,
    },
    Growth {
        name: "check-links",
        about: "the check of SIZE symbolic links with bodies of 8 bytes",
        sizes: &[1, 3, 10, 15, 100, 1_000, 2_000],
        build: check_links,
    },
    Growth {
        name: "check-magic-links",
        about: "the check of SIZE magic links to directories of mount 0",
        sizes: &[1, 10, 100, 1_000, 2_000],
        build: check_magic_links,
    },
];

/// The input of a case such as `walk-links:40`.
pub fn input(case: &str) -> Option<Input> {
    let (name, size) = case.split_once(':')?;
    let growth = GROWTHS.iter().find(|growth| growth.name == name)?;
    let size = size.parse().ok()?;
    growth.sizes.contains(&size).then(|| (growth.build)(size))
}

/// What was measured of one growth.
pub struct Series {
    pub name: &'static str,
    pub points: Vec<Point>,
}

/// The instructions of one call at a size.
pub struct Point {
    pub size: usize,
    pub plain: f64,
    pub proved: Option<f64>,
}

/// Measures all growths and prints a row for each, of instructions per call: the
/// proved ones, if there are any, with the ratio to plain and, in table checks,
/// to linear.
pub fn measure() -> Result<Vec<Series>, Box<dyn Error>> {
    row("what grows", &["size: instructions (ratio, ratio to linear)"]);
    row("---", &["---"]);
    let mut measured = Vec::new();
    for growth in GROWTHS {
        let mut points = Vec::new();
        let mut cells = Vec::new();
        for &size in growth.sizes {
            let case = format!("{}:{size}", growth.name);
            let sides = Measured::new(&case, (growth.build)(size))?.instructions()?;
            let ratios = [sides.to_plain(), sides.to_linear()].map(|ratio| optional(ratio, 3));
            let [to_plain, to_linear] = ratios;
            let ratios = match (sides.proved, sides.linear) {
                (None, _) => String::new(),
                (Some(_), None) => format!(" ({to_plain})"),
                (Some(_), Some(_)) => format!(" ({to_plain}, {to_linear})"),
            };
            let instructions = grouped(sides.proved.unwrap_or(sides.plain));
            cells.push(format!("{}: {instructions}{ratios}", grouped(size as f64)));
            points.push(Point { size, plain: sides.plain, proved: sides.proved });
        }
        row(&format!("{}: {}", growth.name, growth.about), &[cells.join("; ")]);
        measured.push(Series { name: growth.name, points });
    }
    Ok(measured)
}

fn chain(size: usize) -> Tree {
    let (mut tree, top) = Tree::mounted();
    let name = tree.text(b"d");
    tree.chain(top, &name, size, size);
    tree
}

/// One directory of files. The files are few and shared: it is the names that
/// grow.
fn directory(size: usize) -> Tree {
    let (mut tree, top) = Tree::mounted();
    let file = tree.file();
    for i in 0..size {
        tree.named(top, &format!("{i:04}"), file);
    }
    tree
}

fn mounts(size: usize) -> Tree {
    let (mut tree, top) = Tree::mounted();
    for i in 0..size {
        let point = tree.named_directory(top, &format!("{i:03}"));
        let root = tree.top();
        tree.mount(root, 0, point);
    }
    tree
}

fn walk_components(size: usize) -> Input {
    let path = vec!["d"; size].join("/");
    found(&chain(size), 0, &path, (0, size), size as u64, 0)
}

fn walk_entries(size: usize) -> Input {
    found(&directory(size), 0, &format!("{:04}", size / 2), (0, 1), 1, 0)
}

fn walk_mounts(size: usize) -> Input {
    found(&mounts(size), 0, &format!("{:03}", size - 1), (size, 2 * size), 1, 0)
}

fn walk_links(size: usize) -> Input {
    let (mut tree, top) = Tree::mounted();
    tree.named_link(top, "l", ".");
    let file = tree.named_file(top, "f");
    let links = size as u64;
    let path = "l/".repeat(size) + "f";
    found(&tree, 0, &path, (0, file), 2 * links + 1, links)
}

fn check_components(size: usize) -> Input {
    accepted(&chain(size))
}

fn check_entries(size: usize) -> Input {
    accepted(&directory(size))
}

fn check_long_names(size: usize) -> Input {
    let (mut tree, top) = Tree::mounted();
    let file = tree.file();
    for i in 0..size {
        tree.named(top, &format!("{i:0100}"), file);
    }
    accepted(&tree)
}

/// The bodies' slashes are in the text that the names are looked for in.
fn check_mixed(size: usize) -> Input {
    let (mut tree, top) = Tree::mounted();
    let file = tree.file();
    for i in 0..size {
        tree.named(top, &format!("name{i:04}"), file);
    }
    for i in 0..size / 4 {
        let body = tree.text(format!("/pool/{i:06}").as_bytes());
        tree.link(body);
    }
    accepted(&tree)
}

fn check_mounts(size: usize) -> Input {
    accepted(&mounts(size))
}

fn check_links(size: usize) -> Input {
    let (mut tree, _) = Tree::mounted();
    for i in 0..size {
        let body = tree.text(format!("body{i:04}").as_bytes());
        tree.link(body);
    }
    accepted(&tree)
}

fn check_magic_links(size: usize) -> Input {
    let (mut tree, top) = Tree::mounted();
    let directories: Vec<usize> = (0..100).map(|_| tree.directory(top)).collect();
    for i in 0..size {
        tree.magic(0, directories[i % directories.len()]);
    }
    accepted(&tree)
}
