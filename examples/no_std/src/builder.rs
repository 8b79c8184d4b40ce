//! What the example of the same name in examples/rust does, without std and without
//! memory to allocate.
#![no_std]
#![no_main]

mod host;

use host::print;
use ventolaire::{BuildError, Found, OpenHow, Parts};

/// A directory that names another, "lab", and a link, "t"; in "lab" stands a file, "tare". All
/// names, and the body of the link, are parts of one text.
const TEXT: &[u8] = b"lab/tare";

/// A record of two numbers of 16 bits and two of 32.
fn node(kind: u16, parent: u16, first: u32, count: u32) -> [u8; 12] {
    let ([k0, k1], [p0, p1]) = (kind.to_le_bytes(), parent.to_le_bytes());
    let ([f0, f1, f2, f3], [c0, c1, c2, c3]) = (first.to_le_bytes(), count.to_le_bytes());
    [k0, k1, p0, p1, f0, f1, f2, f3, c0, c1, c2, c3]
}

fn entry(offset: u32, length: u16, node: u16) -> [u8; 8] {
    let [o0, o1, o2, o3] = offset.to_le_bytes();
    let ([l0, l1], [n0, n1]) = (length.to_le_bytes(), node.to_le_bytes());
    [o0, o1, o2, o3, l0, l1, n0, n1]
}

fn run() -> Result<(), BuildError> {
    let nodes = [
        node(1, 0, 0, 2), // a directory: its entries are two, from 0 on
        node(1, 0, 2, 1), // another, in the first
        node(2, 0, 0, 0), // a file
        node(3, 0, 0, 8), // a symbolic link to "lab/tare"
    ];
    let entries = [entry(0, 3, 1), entry(4, 1, 3), entry(4, 4, 2)]; // lab, t, tare
    let parts = Parts {
        nodes: nodes.as_flattened(),
        mounts: &[0; 8], // mount 0, whose root and point is node 0
        entries: entries.as_flattened(),
        text: TEXT,
    };

    // Asks how long the image is.
    refused("no room", parts.build_into(&mut []).err());
    let cut = Parts { text: &TEXT[..7], ..parts };
    let mut buffer = [0; 200];
    refused("no last byte of text", cut.build_into(&mut buffer).err());

    // Names first, in the order of the entries, then the body; nothing is shared.
    let table = parts.build_into(&mut buffer)?;
    let text = table.parts().text.escape_ascii();
    print(format_args!("built; bytes {}, text {text}", table.image().len()));

    match table.resolve(table.root(), "t", OpenHow::new()) {
        Ok(Found { place, components, links, .. }) => {
            print(format_args!("t: {place}; components {components}, links {links}"));
        }
        Err(refusal) => print(format_args!("t: {refusal}")),
    }
    Ok(())
}

fn refused(what: &str, error: Option<BuildError>) {
    let Some(error) = error else { return };
    let errno = error.errno();
    match error {
        BuildError::Broken(broken) => {
            let (rule, record) = (broken.rule, broken.record);
            print(format_args!("{what}: {errno}; rule {rule}, record {record}"));
        }
        BuildError::Short { needed, .. } => {
            print(format_args!("{what}: {errno}; bytes {needed}"));
        }
        _ => print(format_args!("{what}: {errno}")),
    }
}
