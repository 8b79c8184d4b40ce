//! A checked table, and its records.

use crate::bench_tree::IMAGE;
use crate::records::Records;
use crate::*;

#[test]
fn a_table_reads_its_nodes() {
    let table = Table::new(IMAGE).unwrap();
    assert_eq!(table.image(), IMAGE);
    assert_eq!(table.root(), Handle::new(0, 0));
    assert_eq!(format!("{table:?}"), "Table { nodes: 12, mounts: 2, entries: 10, .. }");

    let kind = |(number, node): (u64, Node)| match node {
        Node::Directory { parent, entries } => format!("{number} in {parent}: {}", entries.len()),
        Node::File {} => format!("{number} file"),
        Node::Link { body } => format!("{number} -> {}", body.escape_ascii()),
        Node::MagicLink { target } => format!("{number} => {target}"),
    };
    let nodes = [
        "0 in 0: 1",
        "1 in 0: 2",
        "2 in 1: 6",
        "3 file",
        "4 -> ../..",
        "5 -> /lab/cal/tare",
        "6 -> loop",
        "7 in 1: 0",
        "8 in 8: 1",
        "9 file",
        "10 => (0,3)",
        "11 -> tare/",
    ];
    assert_eq!(table.nodes().map(kind).collect::<Vec<_>>(), nodes);
    let mut backwards = table.nodes().rev().map(kind).collect::<Vec<_>>();
    backwards.reverse();
    assert_eq!(backwards, nodes);
}

#[test]
fn a_table_reads_its_mounts_and_entries() {
    let table = Table::new(IMAGE).unwrap();
    let mounts = [(0, 0, 0, 0), (1, 8, 0, 7)];
    let fields = |(number, mount): (u64, Mount)| (number, mount.root, mount.parent, mount.point);
    assert_eq!(table.mounts().map(fields).collect::<Vec<_>>(), mounts);
    assert_eq!(
        table.mounts().map(|(_, mount)| mount.place().to_string()).next_back().unwrap(),
        "(0,7)"
    );

    let of_directories = table.nodes().filter_map(|(_, node)| match node {
        Node::Directory { entries, .. } => Some(entries),
        _ => None,
    });
    assert_eq!(of_directories.flatten().collect::<Vec<_>>(), table.entries().collect::<Vec<_>>());
    let first = "Entry { name: [108, 97, 98], node: 1 }";
    assert!(format!("{:?}", table.entries()).starts_with(&format!("[{first}, Entry")));
}

#[test]
fn records_are_found_by_number_and_no_further() {
    let table = Table::new(IMAGE).unwrap();
    for (number, node) in table.nodes() {
        assert_eq!(format!("{:?}", table.node(number).unwrap()), format!("{node:?}"));
    }
    for (number, mount) in table.mounts() {
        assert_eq!(table.mount(number), Some(mount));
    }
    for number in [12, 1 << 16, 1 << 32, u64::MAX] {
        assert!(table.node(number).is_none() && table.mount(number).is_none());
    }

    let mut entries = table.entries();
    assert_eq!(entries.nth(8).map(|entry| entry.name), Some(&b"up"[..]));
    assert_eq!((entries.len(), entries.size_hint()), (1, (1, Some(1))));
    assert_eq!(entries.next_back().map(|entry| entry.node), Some(9));
    assert_eq!((entries.next(), entries.next(), entries.next_back()), (None, None, None));
}

#[test]
fn a_table_is_refused_or_shared() {
    fn shared<T: Copy + Send + Sync>(_: T) {}
    shared(Table::new(IMAGE).unwrap());
    assert_eq!(Table::try_from(IMAGE).unwrap().image(), IMAGE);
    for len in 0..IMAGE.len() {
        assert_eq!(Table::new(&IMAGE[..len]).err(), check(&IMAGE[..len]).err());
    }
}

/// Mount 0's root need not be node 0.
#[test]
fn the_root_is_mount_0s() {
    let mut image = IMAGE.to_vec();
    let mount = 20 + 12 * 12;
    (image[mount], image[mount + 4]) = (1, 1);
    let table = Table::new(&image).unwrap();
    assert_eq!(table.root(), Handle::new(0, 1));
    let found = table.resolve(table.root(), "/cal", OpenHow::new()).unwrap();
    assert_eq!(found.to_string(), "(0,2); 1 component, 0 links");
}

/// No table is made of such bytes; were one, its readers would still not panic.
#[test]
fn readers_do_not_panic_on_any_bytes() {
    for len in 0..IMAGE.len() {
        for byte in [0, 1, 3, 255] {
            let mut image = IMAGE[..len].to_vec();
            image.extend([byte; 40]);
            let parts = Records::of(&image);
            let read = format!("{:?} {:?} {:?}", parts.nodes(), parts.entries(), parts.mounts());
            assert!(!read.is_empty());
        }
    }
    assert_eq!(Records::of(b"TOC1").nodes().len(), 0);
}
