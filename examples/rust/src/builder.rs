//! Builds a table from records of its own and resolves a path in it.

use std::error::Error;
use ventolaire::{BuildError, OpenHow, Parts};

/// A directory that names another, "lab", and a link, "t"; in "lab" stands a file, "tare". All
/// names, and the body of the link, are parts of one text.
const TEXT: &[u8] = b"lab/tare";

/// A record of two numbers of 16 bits and two of 32.
fn node(kind: u16, parent: u16, first: u32, count: u32) -> [u8; 12] {
    let ([k0, k1], [p0, p1]) = (kind.to_le_bytes(), parent.to_le_bytes());
    let ([f0, f1, f2, f3], [c0, c1, c2, c3]) = (first.to_le_bytes(), count.to_le_bytes());
    [k0, k1, p0, p1, f0, f1, f2, f3, c0, c1, c2, c3]
}

fn entry(offset: u32, length: u16, node: u16) -> [u8; 8] {
    let [o0, o1, o2, o3] = offset.to_le_bytes();
    let ([l0, l1], [n0, n1]) = (length.to_le_bytes(), node.to_le_bytes());
    [o0, o1, o2, o3, l0, l1, n0, n1]
}

fn main() -> Result<(), Box<dyn Error>> {
    let nodes = [
        node(1, 0, 0, 2), // a directory: its entries are two, from 0 on
        node(1, 0, 2, 1), // another, in the first
        node(2, 0, 0, 0), // a file
        node(3, 0, 0, 8), // a symbolic link to "lab/tare"
    ];
    let entries = [entry(0, 3, 1), entry(4, 1, 3), entry(4, 4, 2)]; // lab, t, tare
    let parts = Parts {
        nodes: nodes.as_flattened(),
        mounts: &[0; 8], // mount 0, whose root and point is node 0
        entries: entries.as_flattened(),
        text: TEXT,
    };

    // Asks how long the image is.
    print("no room", parts.build_into(&mut []).err());
    let cut = Parts { text: &TEXT[..7], ..parts };
    let mut buffer = [0; 200];
    print("no last byte of text", cut.build_into(&mut buffer).err());

    // Names first, in the order of the entries, then the body; nothing is shared.
    let table = parts.build_into(&mut buffer)?;
    let text = String::from_utf8_lossy(table.parts().text);
    println!("built; bytes {}, text {text}", table.image().len());

    let found = table.resolve(table.root(), "t", OpenHow::new())?;
    let (place, components, links) = (found.place, found.components, found.links);
    println!("t: {place}; components {components}, links {links}");
    Ok(())
}

fn print(what: &str, error: Option<BuildError>) {
    let Some(error) = error else { return };
    let errno = error.errno();
    match error {
        BuildError::Broken(broken) => {
            println!("{what}: {errno}; rule {}, record {}", broken.rule, broken.record);
        }
        BuildError::Short { needed, .. } => println!("{what}: {errno}; bytes {needed}"),
        _ => println!("{what}: {errno}"),
    }
}
