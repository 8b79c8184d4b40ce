//! What the example of the same name in examples/rust does, without std and without
//! memory to allocate.
#![no_std]
#![no_main]

mod host;

use host::print;
use ventolaire::bench_tree::IMAGE;
use ventolaire::{Broken, FoundName, NameRefusal, Table};

/// The nodes of the directory "cal" and of the file "tare" in it.
const CAL: u64 = 2;
const TARE: u64 = 3;

fn run() -> Result<(), Broken> {
    let table = Table::new(IMAGE)?;
    print(format_args!("table: accepted"));

    // Of six names the third is compared first.
    lookup(&table, CAL, "loop");
    lookup(&table, CAL, "tare");
    lookup(&table, CAL, "nope");
    lookup(&table, TARE, "tare");
    Ok(())
}

fn lookup(table: &Table, node: u64, name: &str) {
    match table.lookup(node, name) {
        Ok(FoundName { entry, node: found, compared, .. }) => print(format_args!(
            "{name} in {node}: entry {entry}, node {found}; names compared {compared}"
        )),
        Err(NameRefusal { errno, compared, .. }) => {
            print(format_args!("{name} in {node}: {errno}; names compared {compared}"));
        }
    }
}
