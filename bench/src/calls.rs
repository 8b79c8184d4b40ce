//! One check, many calls: what a call from Rust costs by `ventolaire::resolve`,
//! which checks the table each time, and by a `Table`, which was checked once.

use crate::measure::{instructions, nanoseconds};
use crate::tables::LAB;
use crate::{grouped, number_of_calls, row, wrong};
use data::image::Tree;
use data::BENCH_TREE;
use std::error::Error;
use std::hint::black_box;
use ventolaire::{Found, Handle, OpenHow, Refusal, Table};

const HANDLE: Handle = Handle::new(0, LAB);
const PATH: &str = "cal/tare";

/// A table's name, what it is, and how it is built.
type Named = (&'static str, &'static str, fn() -> Vec<u8>);

const TABLES: [Named; 2] = [
    ("bench", "the bench tree", || BENCH_TREE.to_vec()),
    ("full", "lab/cal/tare among other directories", full),
];

/// lab/cal/tare, and beside lab 43 directories of 32 files and 8 absolute links
/// each: some 62 KB.
fn full() -> Vec<u8> {
    let (mut tree, top) = Tree::mounted();
    let lab = tree.named_directory(top, "lab");
    let cal = tree.named_directory(lab, "cal");
    tree.named_file(cal, "tare");
    let others = tree.named_directory(top, "others");
    for i in 0..43 {
        let directory = tree.named_directory(others, &format!("{i:02}"));
        for j in 0..32 {
            tree.named_file(directory, &format!("run-{j:04}.dat"));
        }
        for j in 0..8 {
            let body = format!("/others/{i:02}/run-{j:04}.dat");
            tree.named_link(directory, &format!("last-{j}"), &body);
        }
    }
    tree.image()
}

/// Measures both ways and prints a row for each table.
pub fn measure() -> Result<(), Box<dyn Error>> {
    row("cal/tare in", &["bytes", "resolve", "Table::resolve", "resolve ns", "Table::resolve ns"]);
    row("---", &["---:"; 5]);
    for (name, about, build) in TABLES {
        let image = build();
        let figures = [
            image.len() as f64,
            instructions(&["call", name, "resolve"], 10)?,
            instructions(&["call", name, "table"], 1_000)?,
            nanoseconds(|calls| each_time(&image, calls)),
            nanoseconds(|calls| once(&image, calls)),
        ];
        row(about, &figures.map(grouped));
    }
    Ok(())
}

/// One of the ways, that many times; prints what hangs on the answers.
pub fn run(table: &str, way: &str, calls: &str) -> Result<(), Box<dyn Error>> {
    let found = TABLES.into_iter().find(|(name, ..)| *name == table);
    let (.., build) = found.ok_or_else(|| wrong(format!("no table {table}")))?;
    let run = match way {
        "resolve" => each_time,
        "table" => once,
        _ => return Err(wrong(format!("no way {way}"))),
    };
    println!("{}", run(&build(), number_of_calls(calls)?));
    Ok(())
}

/// The table checked at each call.
fn each_time(image: &[u8], calls: u64) -> u64 {
    let call = || ventolaire::resolve(black_box(image), HANDLE, black_box(PATH), OpenHow::new());
    repeat(calls, call)
}

/// The table checked once.
fn once(image: &[u8], calls: u64) -> u64 {
    let table = Table::new(image).expect("an accepted table");
    repeat(calls, || black_box(&table).resolve(HANDLE, black_box(PATH), OpenHow::new()))
}

/// The components taken by all calls.
fn repeat(calls: u64, call: impl Fn() -> Result<Found, Refusal>) -> u64 {
    (0..calls).filter_map(|_| black_box(call()).ok()).map(|found| found.components).sum()
}

#[cfg(test)]
mod tests {
    use super::*;

    #[test]
    fn both_ways_find_it() {
        for ((name, _, build), bytes) in TABLES.into_iter().zip([316..=316, 61_500..=62_500]) {
            let image = build();
            assert!(bytes.contains(&image.len()), "{name}: {}", image.len());
            let found = ventolaire::resolve(&image, HANDLE, PATH, OpenHow::new()).unwrap();
            assert_eq!(found.to_string(), "(0,3); 2 components, 0 links");
            assert_eq!((each_time(&image, 5), once(&image, 5)), (10, 10));
        }
    }
}
