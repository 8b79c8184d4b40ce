use super::*;
use crate::resolver::accept;
use data::image::{Entry, Node, Tree};

const HANDLE: Place = Place { mount: 0, node: 2 };

/// The handle is node 2: below it are two files, a link, a magic link, and a covered directory 4,
/// on which mount 1 has directory 6.
fn tree() -> Tree {
    let (mut tree, top) = Tree::mounted();
    tree.directory(top);
    let handle = tree.directory(top);
    let a = tree.directory(handle);
    let covered = tree.directory(handle);
    let file = tree.file();
    let root = tree.directory(1);
    let link = tree.link("a/f");
    let magic = tree.magic(0, 0);
    let other = tree.file();
    let hidden = tree.file();
    for (directory, name, node) in [
        (top, "h", handle),
        (handle, "a", a),
        (handle, "b", covered),
        (handle, "l", link),
        (handle, "m", magic),
        (a, "f", file),
        (a, "g", other),
        (root, "f", file),
        (covered, "x", hidden),
    ] {
        tree.name(directory, name, node);
    }
    tree.mount(root, 0, covered);
    tree
}

type Change = fn(&mut Tree);

/// Where the tables of the tree and of the changed one differ; the same of both orders.
fn found(change: Change) -> Option<(u64, u64, &'static str)> {
    let mut changed = tree();
    change(&mut changed);
    let images = [tree().image(), changed.image()];
    let [first, second] = [0, 1].map(|at| accept(&images[at]).expect("a table"));
    assert!([&first, &second].iter().all(|table| table.handle_errno(HANDLE).is_none()));
    let found = apart(&first, &second, HANDLE);
    assert_eq!(apart(&second, &first, HANDLE).is_some(), found.is_some());
    found.map(|Apart { place, what }| (place.mount, place.node, what))
}

fn rename(tree: &mut Tree, directory: usize, old: &str, new: &str) {
    let entries = listed(tree, directory);
    let at = entries.iter().position(|entry| entry.name.bytes == old.as_bytes()).unwrap();
    let entry = entries.remove(at);
    assert!(tree.name(directory, new, entry.node));
}

fn listed(tree: &mut Tree, directory: usize) -> &mut Vec<Entry> {
    let Node::Directory { entries, .. } = &mut tree.nodes[directory] else { panic!() };
    entries
}

#[test]
fn what_differs_inside_is_told() {
    let changes: [(Change, (u64, u64, &str)); 14] = [
        (|tree| tree.nodes[9] = Node::Link("f".into()), (0, 9, KIND)),
        (|tree| tree.nodes[8] = Node::File, (0, 8, KIND)),
        (|tree| tree.nodes[7] = Node::Link("a/g".into()), (0, 7, BODY)),
        (|tree| tree.nodes[7] = Node::Link("a/f/".into()), (0, 7, BODY)),
        (|tree| rename(tree, 3, "g", "h"), (0, 3, NAME)),
        (|tree| rename(tree, 2, "b", "c"), (0, 2, NAME)),
        (|tree| rename(tree, 6, "f", "F"), (1, 6, NAME)),
        // The same names and the same nodes, otherwise together.
        (
            |tree| {
                let own = listed(tree, 3);
                (own[0].node, own[1].node) = (own[1].node, own[0].node);
            },
            (0, 3, NODE),
        ),
        (|tree| listed(tree, 3)[1].node = 5, (0, 3, NODE)),
        (|tree| _ = listed(tree, 3).pop(), (0, 3, COUNT)),
        (|tree| _ = tree.name(6, "z", 5), (1, 6, COUNT)),
        (|tree| _ = tree.mounts.pop(), (0, 4, MOUNT)),
        (|tree| _ = tree.mount(0, 0, 3), (0, 3, MOUNT)),
        (|tree| tree.mounts[1].root = 1, (0, 4, ROOT)),
    ];
    for (number, (change, expected)) in changes.into_iter().enumerate() {
        assert_eq!(found(change), Some(expected), "change {number}");
    }
}

/// Mounts of one root, one of which covers the place in either table.
#[test]
fn another_mount_of_the_same_root_is_another() {
    let image = |points: [usize; 2]| {
        let mut tree = tree();
        tree.mounts.pop();
        // A directory that the handle does not reach.
        let aside = tree.directory(0);
        for point in points {
            tree.mount(6, 0, if point == 0 { aside } else { 4 });
        }
        tree.image()
    };
    let images = [image([1, 0]), image([0, 1])];
    let [first, second] = [0, 1].map(|at| accept(&images[at]).expect("a table"));
    let place = Place { mount: 0, node: 4 };
    assert_eq!(apart(&first, &second, HANDLE), Some(Apart { place, what: MOUNT }));
}

fn hang(tree: &mut Tree, node: usize, new: usize) {
    let Node::Directory { parent, .. } = &mut tree.nodes[node] else { panic!() };
    *parent = new;
}

/// RULES 20.5, of what the part has itself.
#[test]
fn what_else_the_part_has_is_not_asked() {
    let changes: [Change; 8] = [
        |_| {},
        // Parents: of the handle's node, of a mount's root.
        |tree| {
            listed(tree, 0).clear();
            hang(tree, 2, 1);
        },
        |tree| {
            listed(tree, 0).clear();
            hang(tree, 2, 2);
            (tree.mounts[0].root, tree.mounts[0].point) = (2, 2);
            tree.nodes[8] = Node::Magic { mount: 0, node: 2 };
        },
        |tree| hang(tree, 6, 6),
        // The target of a magic link, also to another mount.
        |tree| tree.nodes[8] = Node::Magic { mount: 1, node: 6 },
        // Where a text lies.
        |tree| tree.text = b"\0/.".to_vec(),
        // What the covered directory holds.
        |tree| listed(tree, 4).clear(),
        |tree| _ = tree.name(4, "y", 9),
    ];
    for (number, change) in changes.into_iter().enumerate() {
        assert_eq!(found(change), None, "change {number}");
    }
}

/// RULES 20.5, of what lies outside.
#[test]
fn what_lies_outside_is_not_asked() {
    let changes: [Change; 7] = [
        // Mount 0's root is the handle itself.
        |tree| {
            (tree.mounts[0].root, tree.mounts[0].point) = (2, 2);
            tree.nodes[8] = Node::Magic { mount: 0, node: 2 };
        },
        // Counts, and the numbers of the part's entries.
        |tree| _ = tree.file(),
        |tree| _ = tree.name(1, "n", 5),
        // Mounts: on a directory of the part that has no name, on one aside, of the part's root.
        |tree| {
            let nameless = tree.directory(6);
            tree.mount(0, 1, nameless);
        },
        |tree| _ = tree.mount(2, 0, 1),
        |tree| _ = tree.mount(6, 0, 1),
        // Names and kinds.
        |tree| {
            rename(tree, 0, "h", "other");
            tree.nodes[10] = Node::Link("/".into());
        },
    ];
    for (number, change) in changes.into_iter().enumerate() {
        assert_eq!(found(change), None, "change {number}");
    }
}

/// A node that the second table does not have.
#[test]
fn a_node_that_is_missing_differs_in_kind() {
    let one = |is_cut: bool| {
        let (mut tree, top) = Tree::mounted();
        tree.named_file(top, "f");
        if is_cut {
            listed(&mut tree, 0).clear();
            tree.nodes.pop();
        }
        tree.image()
    };
    let images = [one(false), one(true)];
    let [first, second] = [0, 1].map(|at| accept(&images[at]).expect("a table"));
    let handle = Place { mount: 0, node: 0 };
    assert_eq!(apart(&first, &second, handle), Some(Apart { place: handle, what: COUNT }));
    assert_eq!(difference(&first, &second, Place { mount: 0, node: 1 }), Some(KIND));
}
