//! Checks the bench tree's table once and resolves two paths in it.

use std::error::Error;
use ventolaire::bench_tree::IMAGE;
use ventolaire::{Handle, OpenHow, Resolve, Table};

/// The directory "lab": every path here starts there.
const LAB: Handle = Handle::new(0, 1);

fn main() -> Result<(), Box<dyn Error>> {
    let table = Table::new(IMAGE)?;
    println!("table: accepted");

    print(&table, "cal/abs", OpenHow::new());
    print(&table, "pool/run", Resolve::NO_XDEV.into());
    Ok(())
}

fn print(table: &Table, path: &str, how: OpenHow) {
    let (answer, components, links) = match table.resolve(LAB, path, how) {
        Ok(found) => (found.place.to_string(), found.components, found.links),
        Err(refusal) => (refusal.errno.to_string(), refusal.components, refusal.links),
    };
    println!("{path}: {answer}; components {components}, links {links}");
}
