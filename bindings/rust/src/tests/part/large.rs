//! Parts as deep and as large as they can be.

use crate::*;
use data::image::Tree;
use std::time::Instant;

/// An image of a chain of directories, the first of them named in the one before and all by one
/// text, with mounts.
fn chain(nodes: usize, named: usize, mounts: usize) -> Vec<u8> {
    let (mut tree, top) = Tree::mounted();
    let name = tree.text(b"n");
    let chain = tree.chain(top, &name, nodes - 1, named);
    let (first, last) = (chain[0], chain[chain.len() - 1]);
    for mount in 1..mounts {
        // Each shows the chain once more, at the end of the one before.
        tree.mount(first, mount - 1, last);
    }
    tree.image()
}

#[test]
fn the_deepest_tree_is_gone_through() {
    // 20 + 12 * 3,275 + 8 + 8 * 3,274 + 1 bytes, and 20 more would be too many.
    let image = chain(3_275, 3_274, 1);
    assert_eq!(image.len(), 65_521);
    let table = Table::new(&image).unwrap();
    let part = table.part(table.root()).unwrap();
    assert_eq!(part.len(), 3_275);
    let lengths = part.places().map(|reachable| reachable.path().len());
    assert!(lengths.eq((0..3_275).map(|depth: usize| (2 * depth).saturating_sub(1).max(1))));
    assert_eq!(part.in_common_with(&table), Ok(()));
}

/// With so many nodes there is room for 2,044 names. What has none is reached from below alone.
#[test]
fn as_many_nodes_as_there_may_be() {
    let image = chain(4_096, 2_044, 1);
    let table = Table::new(&image).unwrap();
    let len = |node| table.part(Handle::new(0, node)).unwrap().len();
    assert_eq!((len(0), len(2_000), len(2_044), len(2_045), len(4_095)), (2_045, 45, 1, 1, 1));
    assert_eq!(table.part(Handle::new(0, 4_096)).unwrap_err().errno, Errno::EBADF);
}

/// 256 mounts, each at the end of a chain that the one before shows.
#[test]
fn as_many_places_as_binds_can_make() {
    let since = Instant::now();
    let image = chain(3_173, 3_172, 256);
    assert_eq!(image.len(), 20 + 12 * 3_173 + 8 * 256 + 8 * 3_172 + 1);
    let table = Table::new(&image).unwrap();
    let part = table.part(table.root()).unwrap();
    assert_eq!(part.len(), 1 + 256 * 3_172);
    let last = part.places().next_back().unwrap();
    assert_eq!(last.place, Place { mount: 255, node: 3_172 });
    // A root that is entered has no name of its own.
    assert_eq!(last.path().len(), 2 * (3_172 + 255 * 3_171) - 1);
    assert_eq!(part.in_common_with(&table), Ok(()));

    // Without the last mount, what it covered differs, nearly at the end.
    let fewer = chain(3_173, 3_172, 255);
    let told = part.in_common_with(&Table::new(&fewer).unwrap()).unwrap_err();
    assert_eq!(told.what, Difference::Mount { here: Some(255), there: None });
    assert_eq!(told.place, Place { mount: 254, node: 3_172 });
    assert!(since.elapsed().as_secs() < 60, "{:?}", since.elapsed());
}
