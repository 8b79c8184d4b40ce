use super::*;
use crate::resolver::accept;
use data::image::Tree;
use data::BENCH_TREE;

/// The places reachable from a handle over an image, as pairs of numbers.
fn reached(image: &[u8], mount: u64, node: u64) -> Vec<(u64, u64)> {
    let table = accept(image).expect("a table");
    let places = reach(&table, Place { mount, node });
    places.iter().map(|place| (place.mount, place.node)).collect()
}

#[test]
fn the_bench_tree() {
    let below_cal = [(0, 2), (0, 3), (0, 4), (0, 5), (0, 6), (0, 10), (0, 11)];
    assert_eq!(reached(BENCH_TREE, 0, 2), below_cal);
    // The directory under mount 1 is reachable too, being what is entered from.
    let mut below_lab = [&below_cal[..], &[(0, 1), (0, 7), (1, 8), (1, 9)]].concat();
    below_lab.sort();
    assert_eq!(reached(BENCH_TREE, 0, 1), below_lab);
    let all = [&[(0, 0)][..], &below_lab].concat();
    assert_eq!(reached(BENCH_TREE, 0, 0), all);
    assert_eq!(reached(BENCH_TREE, 1, 8), [(1, 8), (1, 9)]);
}

#[test]
fn a_covered_directory_is_not_gone_down_from() {
    let (mut tree, top) = Tree::mounted();
    let a = tree.named_directory(top, "a");
    let b = tree.named_directory(a, "b");
    let second = tree.top();
    tree.mount(second, 0, a);
    assert_eq!(reached(&tree.image(), 0, top as u64), [(0, 0), (0, 1), (1, 3)]);
    // A handle below it is good, and has its own part.
    assert_eq!(reached(&tree.image(), 0, b as u64), [(0, 2)]);
}

/// A place is covered in its own mount alone.
#[test]
fn a_tree_that_shows_itself() {
    let (mut tree, top) = Tree::mounted();
    let a = tree.named_directory(top, "a");
    tree.named_file(a, "f");
    tree.mount(top, 0, a);
    let image = tree.image();
    assert_eq!(reached(&image, 0, 0), [(0, 0), (0, 1), (1, 0), (1, 1), (1, 2)]);
    assert_eq!(reached(&image, 1, 1), [(1, 1), (1, 2)]);
}

#[test]
fn links_parents_and_nameless_ones_make_nothing_reachable() {
    let (mut tree, top) = Tree::mounted();
    let a = tree.named_directory(top, "a");
    let other = tree.named_directory(top, "b");
    tree.directory(a);
    let up = tree.named_link(a, "l", "../b");
    let magic = tree.magic(0, other);
    tree.name(a, "m", magic);
    let expected = [a, up, magic].map(|node| (0, node as u64));
    assert_eq!(reached(&tree.image(), 0, a as u64), expected);
}

/// A mount within a mount, both entered; a third hangs on what the first of them covers.
#[test]
fn mounts_are_entered_in_turn() {
    let (mut tree, top) = Tree::mounted();
    let a = tree.named_directory(top, "a");
    let hidden = tree.named_directory(a, "h");
    let second = tree.top();
    let b = tree.named_directory(second, "b");
    let third = tree.top();
    tree.named_file(third, "f");
    tree.mount(second, 0, a);
    tree.mount(third, 1, b);
    tree.mount(third, 0, hidden);
    let image = tree.image();
    assert_eq!(reached(&image, 0, 0), [(0, 0), (0, 1), (1, 3), (1, 4), (2, 5), (2, 6)]);
}
