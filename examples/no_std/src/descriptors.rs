//! What the example of the same name in examples/rust does, without std and without
//! memory to allocate.
#![no_std]
#![no_main]

mod host;

use core::fmt::{Arguments, Display};
use host::print;
use ventolaire::bench_tree::IMAGE;
use ventolaire::{Broken, Descriptors, Flags, OpenHow, Opened, Refusal, Table};

fn run() -> Result<(), Broken> {
    let mut descriptors = Table::new(IMAGE)?.descriptors();
    print(format_args!("table: accepted"));

    // Only a directory can have the mark, and who asks for it has to say so.
    let marked = descriptors.open_marked(0, "lab", Flags::DIRECTORY);
    opened(format_args!("open 0 lab, marked"), marked);
    open(&mut descriptors, 1, "..");
    open(&mut descriptors, 1, "cal");
    // What is opened through a marked one is not marked.
    open(&mut descriptors, 2, "..");
    // A copy is.
    reply(format_args!("dup 1"), descriptors.duplicate(1));
    open(&mut descriptors, 4, "/");
    reply(format_args!("mark 2"), descriptors.set_mark(2).map(done));
    open(&mut descriptors, 2, "..");
    reply(format_args!("close 1"), descriptors.close(1).map(done));
    open(&mut descriptors, 1, "cal");
    // The lowest number that is free.
    open(&mut descriptors, 3, "cal/tare");
    reply(format_args!("mark 1"), descriptors.set_mark(1).map(done));
    Ok(())
}

fn open(descriptors: &mut Descriptors, number: u64, path: &str) {
    let found = descriptors.open(number, path, OpenHow::new());
    opened(format_args!("open {number} {path}"), found);
}

fn opened(call: Arguments, found: Result<Opened, Refusal>) {
    match found {
        Ok(Opened { descriptor, found, .. }) => {
            let (place, components, links) = (found.place, found.components, found.links);
            print(format_args!(
                "{call}: {descriptor} = {place}; components {components}, links {links}"
            ));
        }
        Err(refusal) => reply(call, Err::<u64, _>(refusal)),
    }
}

fn done(_: ()) -> &'static str {
    "done"
}

fn reply(call: Arguments, reply: Result<impl Display, Refusal>) {
    match reply {
        Ok(reply) => print(format_args!("{call}: {reply}")),
        Err(Refusal { errno, components, links, .. }) => {
            print(format_args!("{call}: {errno}; components {components}, links {links}"));
        }
    }
}
