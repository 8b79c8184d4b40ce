//! What the example of the same name in examples/rust does, without std and without
//! memory to allocate. It would not be linked if the crate needed std: there would be
//! two panic handlers.
#![no_std]
#![no_main]

mod host;

use host::print;
use ventolaire::bench_tree::IMAGE;
use ventolaire::{Broken, Handle, OpenHow, Resolve, Table};

/// The directory "lab": every path here starts there.
const LAB: Handle = Handle::new(0, 1);

fn run() -> Result<(), Broken> {
    let table = Table::new(IMAGE)?;
    print(format_args!("table: accepted"));
    resolve(&table, "cal/abs", OpenHow::new());
    resolve(&table, "pool/run", Resolve::NO_XDEV.into());
    Ok(())
}

fn resolve(table: &Table, path: &str, how: OpenHow) {
    match table.resolve(LAB, path, how) {
        Ok(found) => {
            let (components, links) = (found.components, found.links);
            print(format_args!("{path}: {}; components {components}, links {links}", found.place));
        }
        Err(refusal) => {
            let (components, links) = (refusal.components, refusal.links);
            print(format_args!(
                "{path}: {}; components {components}, links {links}",
                refusal.errno
            ));
        }
    }
}
