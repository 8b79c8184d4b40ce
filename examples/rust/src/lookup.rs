//! Checks the bench tree's table once and looks names up in it.

use std::error::Error;
use ventolaire::bench_tree::IMAGE;
use ventolaire::Table;

/// The nodes of the directory "cal" and of the file "tare" in it.
const CAL: u64 = 2;
const TARE: u64 = 3;

fn main() -> Result<(), Box<dyn Error>> {
    let table = Table::new(IMAGE)?;
    println!("table: accepted");

    // Of six names the third is compared first.
    print(&table, CAL, "loop");
    print(&table, CAL, "tare");
    print(&table, CAL, "nope");
    print(&table, TARE, "tare");
    Ok(())
}

fn print(table: &Table, node: u64, name: &str) {
    let (answer, compared) = match table.lookup(node, name) {
        Ok(found) => (format!("entry {}, node {}", found.entry, found.node), found.compared),
        Err(refusal) => (refusal.errno.to_string(), refusal.compared),
    };
    println!("{name} in {node}: {answer}; names compared {compared}");
}
