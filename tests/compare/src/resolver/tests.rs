//! What the list of worked cases cannot say: the events of a walk, the second
//! answer that they give, and that any bytes have an answer.

use super::*;
use data::image::Tree;
use data::{how, BENCH_TREE};

/// The answer over an image, with the events.
fn walked(image: &[u8], handle: Place, path: &[u8], resolve: u64) -> (Answer, Vec<Met>) {
    resolve_with_events(accept(image).ok().as_ref(), handle, false, path, &how(0, resolve))
}

fn found(mount: u64, node: u64, components: u64, links: u64) -> [u64; 6] {
    [0, 255, mount, node, components, links]
}

fn refused(errno: u64, components: u64, links: u64) -> [u64; 6] {
    [errno, 255, 0, 0, components, links]
}

#[test]
fn parent_crosses_twice() {
    // Mount 1 covers node 1; mount 2 covers node 2, below it.
    let (mut tree, top) = Tree::mounted();
    let a = tree.named_directory(top, "a");
    let b = tree.named_directory(a, "b");
    tree.mount(top, 0, a);
    tree.mount(top, 0, b);
    let image = tree.image();
    let handle = Place { mount: 2, node: 0 };
    let (answer, events) = walked(&image, handle, b"..", 0);
    assert_eq!(answer.numbers(), found(1, 0, 1, 0));
    let met: Vec<Event> = events.iter().map(|met| met.event).collect();
    assert_eq!(met, [Event::Escape, Event::Cross, Event::Cross]);
}

#[test]
fn demand_3_from_the_events() {
    let handle = Place { mount: 0, node: 1 };
    let mark = Restrictions::new(true, 0);
    for (path, set, added, expected) in [
        // Nothing forbidden: the same answer.
        ("cal/tare", 0, Restrictions::new(true, 7), found(0, 3, 2, 0)),
        // The mark lets Link pass, not Jump.
        ("cal/abs", 0, mark, refused(ENOENT, 2, 0)),
        ("cal/abs", 0, Restrictions::new(false, NO_SYMLINKS), refused(ELOOP, 2, 0)),
        // The row is tried over all now set: the mark stands before BENEATH.
        ("..", BENEATH, mark, refused(ENOENT, 1, 0)),
        ("cal/fd", IN_ROOT, mark, refused(ENOENT, 2, 0)),
        ("cal/fd", IN_ROOT, Restrictions::new(false, NO_MAGICLINKS), refused(ELOOP, 2, 0)),
        ("cal/fd", 0, Restrictions::new(false, NO_XDEV), found(0, 3, 2, 1)),
        ("pool/run", 0, Restrictions::new(false, NO_XDEV), refused(EXDEV, 1, 0)),
        ("/", 0, Restrictions::new(false, BENEATH), refused(EXDEV, 0, 0)),
        ("/lab", IN_ROOT, mark, refused(ENOENT, 0, 0)),
    ] {
        let (first, events) = walked(BENCH_TREE, handle, path.as_bytes(), set);
        let second = second_answer(first, &events, Restrictions::new(false, set), added);
        assert_eq!(second.numbers(), expected, "{path}");
    }
}

/// Handles that the checks refuse in the bench tree, which has 2 mounts and 12 nodes.
const BAD: [((u64, u64), u64); 15] = [
    // Out of range: one past the end, and numbers that are good if cut to 16 or 32 bits.
    ((2, 1), EBADF),
    ((0, 12), EBADF),
    ((1 << 16, 1), EBADF),
    ((0, (1 << 16) + 1), EBADF),
    ((1 << 32, 1), EBADF),
    ((0, (1 << 32) + 1), EBADF),
    ((u64::MAX, u64::MAX), EBADF),
    // The file "tare", the link "up" and the magic link "fd"; the kind comes before the place.
    ((0, 3), ENOTDIR),
    ((0, 4), ENOTDIR),
    ((0, 10), ENOTDIR),
    ((1, 3), ENOTDIR),
    // The second tree in mount 0, "lab" in mount 1, and "pool", which mount 1 covers.
    ((0, 8), EBADF),
    ((0, 9), ENOTDIR),
    ((1, 1), EBADF),
    ((0, 7), EBADF),
];

fn place((mount, node): (u64, u64)) -> Place {
    Place { mount, node }
}

/// The bench tree's answer with resolve and the mark.
fn bench(handle: (u64, u64), mark: bool, path: &str, resolve: u64) -> [u64; 6] {
    let table = accept(BENCH_TREE).expect("the bench tree");
    resolve_in(&table, place(handle), mark, path.as_bytes(), &how(0, resolve)).0.numbers()
}

#[test]
fn an_absolute_path_needs_no_good_handle() {
    let good = [((0, 0), 0), ((0, 1), 0), ((1, 8), 0)];
    for (handle, _) in BAD.into_iter().chain(good) {
        for (path, resolve, expected) in [
            ("/", 0, found(0, 0, 0, 0)),
            ("///", NO_XDEV, found(0, 0, 0, 0)),
            ("/..", 0, found(0, 0, 1, 0)),
            ("/../lab", NO_SYMLINKS, found(0, 1, 2, 0)),
            ("//lab/..", 0, found(0, 0, 2, 0)),
            ("/lab/cal/tare", 7, found(0, 3, 3, 0)),
            ("/lab/pool/run", 0, found(1, 9, 3, 0)),
            ("/lab/pool/run", NO_XDEV, refused(EXDEV, 2, 0)),
            ("/lab/pool/..", 0, found(0, 1, 3, 0)),
            ("/lab/cal/abs", 0, found(0, 3, 6, 1)),
            ("/lab/cal/abs", NO_SYMLINKS, refused(ELOOP, 3, 0)),
            ("/lab/cal/fd", NO_XDEV, found(0, 3, 3, 1)),
            ("/lab/cal/fd", NO_MAGICLINKS, refused(ELOOP, 3, 0)),
            ("/lab/cal/tare/", 0, refused(ENOTDIR, 3, 0)),
            ("/x", 0, refused(ENOENT, 1, 0)),
            // "such a path meets EXDEV at Start whatever the handle is"
            ("/", BENEATH, refused(EXDEV, 0, 0)),
            ("//x", BENEATH, refused(EXDEV, 0, 0)),
            ("/../lab", BENEATH | 7, refused(EXDEV, 0, 0)),
        ] {
            assert_eq!(bench(handle, false, path, resolve), expected, "{handle:?} {path}");
        }
    }
}

#[test]
fn a_bad_handle_is_refused_where_it_is_checked() {
    for (handle, errno) in BAD {
        for path in ["/", "//", "/..", "/../lab", "/lab/cal", "lab", ".", "..", "./", "x/"] {
            let is_absolute = path.starts_with('/');
            for resolve in [0, 7, BENEATH, BENEATH | 7, IN_ROOT, IN_ROOT | 7] {
                // "A marked handle is still checked first": before Start.
                assert_eq!(bench(handle, true, path, resolve), refused(errno, 0, 0), "{path}");
                if !is_absolute || resolve & IN_ROOT != 0 {
                    let got = bench(handle, false, path, resolve);
                    assert_eq!(got, refused(errno, 0, 0), "{handle:?} {path} {resolve}");
                }
            }
        }
    }
    // A good one that is marked comes to Start, under IN_ROOT too.
    for resolve in [0, BENEATH, IN_ROOT] {
        assert_eq!(bench((0, 1), true, "/", resolve), refused(ENOENT, 0, 0));
    }
    assert_eq!(bench((0, 1), false, "/cal", IN_ROOT), found(0, 2, 1, 0));
}

#[test]
fn what_comes_before_the_handle_still_does() {
    let long = "/".repeat(4096);
    for (handle, _) in BAD {
        for mark in [false, true] {
            for (path, resolve, expected) in [
                ("/\0", BENEATH, refused(EINVAL, 0, 0)),
                ("/\0", 0, refused(EINVAL, 0, 0)),
                (&long, BENEATH, refused(ENAMETOOLONG, 0, 0)),
                ("", BENEATH, refused(ENOENT, 0, 0)),
                ("/", BENEATH | IN_ROOT, refused(EINVAL, 0, 0)),
                ("/", BENEATH | 32, [EINVAL, 69, 0, 0, 0, 0]),
            ] {
                assert_eq!(bench(handle, mark, path, resolve), expected, "{handle:?} {resolve}");
            }
            let refused = refused(EUCLEAN, 0, 0);
            let how = how(0, BENEATH);
            let over = resolve_with_events(None, place(handle), mark, b"/", &how).0;
            assert_eq!(over.numbers(), refused);
        }
    }
}

#[test]
fn any_bytes_give_an_answer() {
    let mut state = 7u64;
    let mut byte = || {
        state = state.wrapping_mul(6364136223846793005).wrapping_add(1442695040888963407);
        (state >> 33) as u8
    };
    for _ in 0..20_000 {
        let mut changed = BENCH_TREE.to_vec();
        for _ in 0..1 + byte() % 3 {
            let at = (usize::from(byte()) * 256 + usize::from(byte())) % changed.len();
            changed[at] = byte();
        }
        let path: Vec<u8> = (0..byte() % 9).map(|_| b"./tcal"[usize::from(byte() % 6)]).collect();
        let handle = Place { mount: 0, node: u64::from(byte() % 3) };
        walked(&changed, handle, &path, 0);
    }
}

/// RULES 9.21.
#[test]
fn the_places_stood_on() {
    let table = accept(BENCH_TREE).expect("the bench tree");
    let handle = Place { mount: 0, node: 1 };
    for (path, resolve, expected) in [
        ("cal/tare", 0, &[(0, 1), (0, 2), (0, 3)][..]),
        ("pool/run", 0, &[(0, 1), (1, 8), (1, 9)]),
        // The point is passed, not stood on.
        ("pool/../cal", BENEATH, &[(0, 1), (1, 8), (0, 1), (0, 2)]),
        (".", BENEATH, &[(0, 1), (0, 1)]),
        // A component that leads to a refusal has no place, and none comes after it.
        ("..", BENEATH, &[(0, 1)]),
        ("../cal", IN_ROOT, &[(0, 1), (0, 1), (0, 2)]),
        ("cal/none/..", 0, &[(0, 1), (0, 2)]),
        ("pool/run", NO_XDEV, &[(0, 1)]),
        // ENOTDIR comes before the next component is taken.
        ("cal/tare/x", 0, &[(0, 1), (0, 2), (0, 3)]),
        ("cal/tare/", 0, &[(0, 1), (0, 2), (0, 3)]),
        // Where a body is read from: the directory of the link, or the root.
        ("cal/up", 0, &[(0, 1), (0, 2), (0, 2), (0, 1), (0, 0)]),
        ("cal/up", BENEATH, &[(0, 1), (0, 2), (0, 2), (0, 1)]),
        ("cal/abs", 0, &[(0, 1), (0, 2), (0, 0), (0, 1), (0, 2), (0, 3)]),
        ("cal/abs", BENEATH, &[(0, 1), (0, 2)]),
        ("cal/abs", IN_ROOT, &[(0, 1), (0, 2), (0, 1)]),
        ("cal/fd", 0, &[(0, 1), (0, 2), (0, 3)]),
        ("cal/fd", IN_ROOT, &[(0, 1), (0, 2)]),
        // None, if Start is refused or the call before its walk.
        ("/", BENEATH, &[]),
        ("/", 0, &[(0, 0)]),
        ("/cal", IN_ROOT, &[(0, 1), (0, 2)]),
        ("", 0, &[]),
        (".", 32, &[]),
    ] {
        let walked = walked_in(&table, handle, false, path.as_bytes(), &how(0, resolve));
        let stood: Vec<(u64, u64)> = walked.stood.iter().map(|p| (p.mount, p.node)).collect();
        assert_eq!(stood, expected, "{path}, {resolve}");
    }
    let covered = Place { mount: 0, node: 7 };
    assert!(walked_in(&table, covered, false, b".", &how(0, 0)).stood.is_empty());
}
