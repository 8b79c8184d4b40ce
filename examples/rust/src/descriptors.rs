//! Checks the bench tree's table once and makes a script's calls on descriptors.

use std::error::Error;
use std::fmt::Display;
use ventolaire::bench_tree::IMAGE;
use ventolaire::{Descriptors, Flags, OpenHow, Opened, Refusal, Table};

fn main() -> Result<(), Box<dyn Error>> {
    let mut descriptors = Table::new(IMAGE)?.descriptors();
    println!("table: accepted");

    // Only a directory can have the mark, and who asks for it has to say so.
    let marked = descriptors.open_marked(0, "lab", Flags::DIRECTORY);
    print("open 0 lab, marked", marked.map(shown));
    open(&mut descriptors, 1, "..");
    open(&mut descriptors, 1, "cal");
    // What is opened through a marked one is not marked.
    open(&mut descriptors, 2, "..");
    // A copy is.
    print("dup 1", descriptors.duplicate(1));
    open(&mut descriptors, 4, "/");
    print("mark 2", descriptors.set_mark(2).map(done));
    open(&mut descriptors, 2, "..");
    print("close 1", descriptors.close(1).map(done));
    open(&mut descriptors, 1, "cal");
    // The lowest number that is free.
    open(&mut descriptors, 3, "cal/tare");
    print("mark 1", descriptors.set_mark(1).map(done));
    Ok(())
}

fn open(descriptors: &mut Descriptors, number: u64, path: &str) {
    let opened = descriptors.open(number, path, OpenHow::new());
    print(&format!("open {number} {path}"), opened.map(shown));
}

fn shown(Opened { descriptor, found, .. }: Opened) -> String {
    let (components, links) = (found.components, found.links);
    format!("{descriptor} = {}; components {components}, links {links}", found.place)
}

fn done(_: ()) -> &'static str {
    "done"
}

fn print(call: &str, reply: Result<impl Display, Refusal>) {
    match reply {
        Ok(reply) => println!("{call}: {reply}"),
        Err(Refusal { errno, components, links, .. }) => {
            println!("{call}: {errno}; components {components}, links {links}");
        }
    }
}
