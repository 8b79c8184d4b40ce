//! What names and bodies cost by their length, byte by byte: short ones are the
//! common ones, and where a faster way for long ones may lose.

use crate::measure::{Measured, Sides};
use crate::tables::{accepted, found, letters, Input};
use crate::{grouped, optional, row};
use data::image::Tree;
use std::error::Error;
use std::ops::RangeInclusive;

pub const LENGTHS: RangeInclusive<usize> = 1..=24;

pub struct Sweep {
    pub name: &'static str,
    pub about: &'static str,
    build: fn(usize) -> Input,
}

pub const SWEEPS: &[Sweep] = &[
    Sweep {
        name: "sweep-names",
        about: "the check of 10 directories of 100 names of LENGTH bytes, alike but for the last",
        build: |len| accepted(&directories(10, len)),
    },
    Sweep {
        name: "sweep-bodies",
        about: "the check of 1,000 symbolic links with bodies of LENGTH bytes",
        build: bodies,
    },
    Sweep {
        name: "sweep-lookup",
        about: "a walk of one component, the last of 100 names of LENGTH bytes, all of that length",
        build: lookup,
    },
];

/// The input of a case such as `sweep-names:7`.
pub fn input(case: &str) -> Option<Input> {
    let (name, len) = case.split_once(':')?;
    let sweep = SWEEPS.iter().find(|sweep| sweep.name == name)?;
    let len = len.parse().ok()?;
    LENGTHS.contains(&len).then(|| (sweep.build)(len))
}

/// Measures all lengths and prints a row for each, of instructions per call.
pub fn measure() -> Result<(), Box<dyn Error>> {
    let check = ["plain", "linear", "proved", "ratio", "to linear"];
    let walk = ["plain", "proved", "ratio"];
    let kinds = [("names", &check[..]), ("bodies", &check), ("lookup", &walk)];
    let heads = kinds.map(|(kind, heads)| heads.iter().map(move |head| format!("{kind}: {head}")));
    let heads: Vec<String> = heads.into_iter().flatten().collect();
    row("bytes", &heads);
    row("---:", &vec!["---:"; heads.len()]);
    for len in LENGTHS {
        let mut cells = Vec::new();
        for sweep in SWEEPS {
            let case = format!("{}:{len}", sweep.name);
            let measured = Measured::new(&case, (sweep.build)(len))?;
            cells.extend(cells_of(&measured.instructions()?, measured.is_check()));
        }
        row(&len.to_string(), &cells);
    }
    Ok(())
}

fn cells_of(sides: &Sides<f64>, is_check: bool) -> Vec<String> {
    let mut cells = vec![grouped(sides.plain)];
    if is_check {
        cells.push(sides.linear.map_or("-".into(), grouped));
    }
    cells.push(sides.proved.map_or("-".into(), grouped));
    cells.push(optional(sides.to_plain(), 3));
    if is_check {
        cells.push(optional(sides.to_linear(), 3));
    }
    cells
}

/// Names of one byte have to differ in it, so there are no more than 100 of
/// them in a directory.
fn directories(number: usize, len: usize) -> Tree {
    let (mut tree, top) = Tree::mounted();
    let file = tree.file();
    for i in 0..number {
        let directory = if i == 0 { top } else { tree.directory(top) };
        for name in names(len) {
            tree.named(directory, &name, file);
        }
    }
    tree
}

/// 100 names in ascending order.
fn names(len: usize) -> impl Iterator<Item = String> {
    let last = ('\x10'..='\x7F').filter(|&byte| byte != '.' && byte != '/').take(100);
    last.map(move |last| "n".repeat(len - 1) + &last.to_string())
}

fn bodies(len: usize) -> Input {
    let (mut tree, _) = Tree::mounted();
    let all = tree.text(&letters(1_000 * len));
    for i in 0..1_000 {
        tree.link(all.part(i * len, len));
    }
    accepted(&tree)
}

fn lookup(len: usize) -> Input {
    let last = names(len).last().unwrap_or_default();
    found(&directories(1, len), 0, &last, (0, 1), 1, 0)
}
