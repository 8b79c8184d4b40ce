//! Which places are reachable, and how. What is expected was worked out by hand.

use super::build;
use crate::bench_tree::IMAGE;
use crate::tests::handles::BAD;
use crate::*;

/// A part as text: each place with its path.
fn told(image: &[u8], handle: Handle) -> Vec<String> {
    let part = Table::new(image).unwrap().part(handle).unwrap();
    let place = |reachable: Reachable| {
        let Place { mount, node } = reachable.place;
        let path = String::from_utf8(reachable.path()).unwrap();
        match reachable.covered_by {
            Some(by) => format!("{mount}:{node} {path}, covered by {by}"),
            None => format!("{mount}:{node} {path}"),
        }
    };
    part.places().map(place).collect()
}

const OF_CAL: [&str; 7] =
    ["0:2 .", "0:5 abs", "0:10 fd", "0:6 loop", "0:11 t", "0:3 tare", "0:4 up"];

const OF_LAB: [&str; 11] = [
    "0:1 .",
    "0:2 cal",
    "0:5 cal/abs",
    "0:10 cal/fd",
    "0:6 cal/loop",
    "0:11 cal/t",
    "0:3 cal/tare",
    "0:4 cal/up",
    "0:7 pool, covered by 1",
    "1:8 pool",
    "1:9 pool/run",
];

#[test]
fn the_bench_tree_has_these_parts() {
    assert_eq!(told(IMAGE, Handle::new(0, 1)), OF_LAB);
    assert_eq!(told(IMAGE, Handle::new(0, 1).marked()), OF_LAB);
    assert_eq!(told(IMAGE, Handle::new(0, 2)), OF_CAL);
    assert_eq!(told(IMAGE, Handle::new(1, 8)), ["1:8 .", "1:9 run"]);
    let below = OF_LAB[1..].iter().map(|place| place.replacen(' ', " lab/", 1));
    let of_root = ["0:0 .", "0:1 lab"].map(String::from).into_iter().chain(below);
    assert_eq!(told(IMAGE, Handle::new(0, 0)), of_root.collect::<Vec<_>>());
}

#[test]
fn a_part_tells_what_is_in_it() {
    let table = Table::new(IMAGE).unwrap();
    let part = table.part(Handle::new(0, 1)).unwrap();
    assert_eq!((part.len(), part.places().len(), part.into_iter().count()), (11, 11, 11));
    assert_eq!(part.handle(), Place { mount: 0, node: 1 });
    let debug = "Part { handle: Place { mount: 0, node: 1 }, places: 11, .. }";
    assert_eq!(format!("{part:?}"), debug);
    let first = "[Reachable { place: Place { mount: 0, node: 1 }, node: Directory {";
    assert!(format!("{:?}", part.places()).starts_with(first));

    let kinds = part.places().map(|reachable| (reachable.place.node, reachable.node.kind()));
    let (directory, link) = (Kind::Directory, Kind::Link);
    let expected = [(1, directory), (2, directory), (5, link), (10, Kind::MagicLink), (6, link)];
    assert_eq!(kinds.take(5).collect::<Vec<_>>(), expected);
    let mut backwards: Vec<Place> = part.places().rev().map(|reachable| reachable.place).collect();
    backwards.reverse();
    assert!(part.places().map(|reachable| reachable.place).eq(backwards));
    assert_eq!(part.places().nth(8).unwrap().covered_by, Some(1));
    assert!(part.places().nth(11).is_none());
}

#[test]
fn a_part_contains_its_places_and_no_other() {
    let table = Table::new(IMAGE).unwrap();
    for handle in [(0, 0), (0, 1), (0, 2), (1, 8)].map(|(mount, node)| Handle::new(mount, node)) {
        let part = table.part(handle).unwrap();
        let mut contained = 0;
        for (mount, node) in (0..4).flat_map(|mount| (0..30).map(move |node| (mount, node))) {
            let place = Place { mount, node };
            let is_there = part.places().any(|reachable| reachable.place == place);
            assert_eq!(part.contains(place), is_there, "{place}");
            contained += usize::from(is_there);
        }
        assert_eq!(contained, part.len());
        for (mount, node) in [(0, 1 << 16), (1 << 16, 1), (1 << 63, 1), (u64::MAX, u64::MAX)] {
            assert!(!part.contains(Place { mount, node }));
        }
    }
}

/// As a relative path is: RULES 7.4.
#[test]
fn a_bad_handle_has_none() {
    let table = Table::new(IMAGE).unwrap();
    for &(handle, errno) in BAD {
        for handle in [handle, handle.marked()] {
            let refusal = table.part(handle).unwrap_err();
            assert_eq!(refusal, Refusal::from(errno), "{handle:?}");
            let relative = table.resolve(handle, "cal", Resolve::BENEATH);
            assert_eq!(relative, Err(refusal), "{handle:?}");
        }
    }
}

#[test]
fn the_smallest_part_is_the_handle() {
    assert_eq!(told(&build(""), Handle::new(0, 0)), ["0:0 ."]);
    assert_eq!(told(&build("dir /a\nfile /b"), Handle::new(0, 1)), ["0:1 ."]);
}

#[test]
fn what_a_mount_hides_is_not_reached() {
    let image = build("dir /p\ndir /p/q\nfile /p/q/r\ndir disk:\nfile disk:/q\nmount disk: /p");
    let shown = ["0:0 .", "0:1 p, covered by 1", "1:4 p", "1:5 p/q"];
    assert_eq!(told(&image, Handle::new(0, 0)), shown);
    // A handle below a covered directory is good, and what is hidden is its part.
    assert_eq!(told(&image, Handle::new(0, 2)), ["0:2 .", "0:3 r"]);
}

/// A bind mount shows the same nodes at other places, and mounts in it are not in both.
#[test]
fn binds_and_nested_mounts_are_entered() {
    let bind = "dir /a\nfile /a/f\ndir /b\n";
    let once = ["0:0 .", "0:1 a", "0:2 a/f", "0:3 b, covered by 1", "1:1 b", "1:2 b/f"];
    assert_eq!(told(&build(&format!("{bind}mount /a /b")), Handle::new(0, 0)), once);
    let nested = build(&format!("{bind}mount / /b as m\nmount /a /b in m"));
    let places = [
        "0:0 .",
        "0:1 a",
        "0:2 a/f",
        "0:3 b, covered by 1",
        "1:0 b",
        "1:1 b/a",
        "1:2 b/a/f",
        "1:3 b/b, covered by 2",
        "2:1 b/b",
        "2:2 b/b/f",
    ];
    assert_eq!(told(&nested, Handle::new(0, 0)), places);
    assert_eq!(told(&nested, Handle::new(2, 1)), ["2:1 .", "2:2 f"]);
    assert_eq!(told(&nested, Handle::new(1, 0))[1], "1:1 a");
}

/// The first name in order tells the path.
#[test]
fn what_has_two_names_is_there_once() {
    let image = build("dir /b\nfile /b/f\nhard /b/e /b/f\nhard /a /b\nhard /z /b/f\nlink /c b/f");
    assert_eq!(told(&image, Handle::new(0, 0)), ["0:0 .", "0:1 a", "0:2 a/e", "0:3 c"]);
    assert_eq!(told(&image, Handle::new(0, 1)), ["0:1 .", "0:2 e"]);
}

/// Links and ".." make nothing reachable, and directories without a name are not.
#[test]
fn links_lead_nowhere() {
    let image = build("dir /a\nlink /a/out /b\nmagic /a/fd /b\ndir n: in /a\ndir /b\nfile /b/f");
    assert_eq!(told(&image, Handle::new(0, 1)), ["0:1 .", "0:2 fd", "0:3 out"]);
}
