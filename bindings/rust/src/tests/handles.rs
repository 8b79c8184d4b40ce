//! When a handle is checked, and what an absolute path answers where it is not.

use super::LAB;
use crate::bench_tree::IMAGE;
use crate::*;

const NOTHING: Resolve = Resolve::empty();

/// Handles that are not good, and what the check says: numbers out of range, then no directory,
/// then outside of the mount's root or covered.
pub const BAD: &[(Handle, Errno)] = &[
    (Handle::new(2, 0), Errno::EBADF),
    (Handle::new(2, 3), Errno::EBADF),
    (Handle::new(0, 12), Errno::EBADF),
    // The low bits alone would be good.
    (Handle::new(1 << 16, 0), Errno::EBADF),
    (Handle::new(0, (1 << 16) + 1), Errno::EBADF),
    (Handle::new(1 << 32, 0), Errno::EBADF),
    (Handle::new(0, 1 << 63), Errno::EBADF),
    (Handle::new(u64::MAX, 0), Errno::EBADF),
    (Handle::new(u64::MAX, u64::MAX), Errno::EBADF),
    (Handle::new(0, 3), Errno::ENOTDIR),
    (Handle::new(0, 4), Errno::ENOTDIR),
    (Handle::new(0, 10), Errno::ENOTDIR),
    (Handle::new(1, 3), Errno::ENOTDIR),
    (Handle::new(0, 7), Errno::EBADF),
    (Handle::new(0, 8), Errno::EBADF),
    (Handle::new(1, 0), Errno::EBADF),
    (Handle::new(1, 7), Errno::EBADF),
];

const RELATIVE: [&str; 5] = [".", "..", "lab", "none", "lab/cal/loop"];

/// Absolute paths under a restriction, and their answers from mount 0's root.
const ABSOLUTE: &[(&str, Resolve, &str)] = &[
    ("/", NOTHING, "(0,0); 0 components, 0 links"),
    ("/..", NOTHING, "(0,0); 1 component, 0 links"),
    ("//lab/.", NOTHING, "(0,1); 2 components, 0 links"),
    ("/lab/cal/tare", NOTHING, "(0,3); 3 components, 0 links"),
    ("/lab/pool/run", NOTHING, "(1,9); 3 components, 0 links"),
    ("/lab/pool/..", NOTHING, "(0,1); 3 components, 0 links"),
    ("/lab/cal/abs", NOTHING, "(0,3); 6 components, 1 link"),
    ("/lab/cal/up/..", NOTHING, "(0,0); 6 components, 1 link"),
    ("/none", NOTHING, "ENOENT (2); 1 component, 0 links"),
    ("/lab/cal/tare/x", NOTHING, "ENOTDIR (20); 3 components, 0 links"),
    ("/lab/cal/loop", NOTHING, "ELOOP (40); 43 components, 40 links"),
    // Start is no crossing, wherever the handle is.
    ("/lab", Resolve::NO_XDEV, "(0,1); 1 component, 0 links"),
    ("/lab/pool/run", Resolve::NO_XDEV, "EXDEV (18); 2 components, 0 links"),
    ("/lab/cal/abs", Resolve::NO_SYMLINKS, "ELOOP (40); 3 components, 0 links"),
    ("/lab/cal/fd", Resolve::NO_MAGICLINKS, "ELOOP (40); 3 components, 0 links"),
];

/// The answer as text, which the call that checks the table and the one that does not agree on.
fn answer(handle: Handle, path: &str, resolve: Resolve) -> String {
    let answer = Table::new(IMAGE).unwrap().resolve(handle, path, resolve);
    assert_eq!(crate::resolve(IMAGE, handle, path, resolve), answer, "{handle:?} {path}");
    answer.map_or_else(|refusal| refusal.to_string(), |found| found.to_string())
}

/// A refusal before the walk, or at Start.
fn at_once(errno: Errno) -> String {
    Refusal::from(errno).to_string()
}

/// All sets of resolve bits that a call may have.
fn sets() -> impl Iterator<Item = Resolve> {
    let scopes = Resolve::BENEATH | Resolve::IN_ROOT;
    (0..32).map(Resolve::from_bits_retain).filter(move |set| !set.contains(scopes))
}

#[test]
fn a_relative_path_wants_a_good_handle() {
    for &(handle, errno) in BAD {
        for (path, resolve) in RELATIVE.iter().flat_map(|path| sets().map(move |set| (path, set))) {
            for handle in [handle, handle.marked()] {
                assert_eq!(answer(handle, path, resolve), at_once(errno), "{handle:?} {resolve:?}");
            }
        }
    }
}

/// "with an absolute path, no IN_ROOT and no mark, the handle isn't checked."
#[test]
fn an_absolute_path_wants_none() {
    for &(path, resolve, expected) in ABSOLUTE {
        for handle in BAD.iter().map(|(handle, _)| *handle).chain([LAB, Handle::new(1, 8)]) {
            assert_eq!(answer(handle, path, resolve), expected, "{handle:?} {path} {resolve:?}");
        }
    }
}

/// "A marked handle is still checked first"; so is one that IN_ROOT takes as the root.
#[test]
fn the_mark_and_in_root_want_a_good_handle() {
    for &(handle, errno) in BAD {
        for (path, resolve) in ABSOLUTE.iter().flat_map(|row| sets().map(move |set| (row.0, set))) {
            let what = format!("{handle:?} {path} {resolve:?}");
            assert_eq!(answer(handle.marked(), path, resolve), at_once(errno), "marked {what}");
            if resolve.contains(Resolve::IN_ROOT) {
                assert_eq!(answer(handle, path, resolve), at_once(errno), "{what}");
            }
        }
    }
}

/// "With BENEATH, no mark and no refusal before the walk, such a path meets EXDEV at Start whatever
/// the handle is."
#[test]
fn beneath_refuses_an_absolute_path_at_start() {
    let handles = BAD.iter().map(|(handle, _)| *handle).chain([LAB, Handle::new(1, 8)]);
    for handle in handles {
        for resolve in sets().filter(|set| set.contains(Resolve::BENEATH)) {
            for (path, ..) in ABSOLUTE {
                assert_eq!(answer(handle, path, resolve), at_once(Errno::EXDEV), "{handle:?}");
            }
        }
        // What refuses before the walk comes first.
        let refused = |path: &str, resolve| answer(handle, path, resolve);
        let both = Resolve::BENEATH | Resolve::IN_ROOT;
        assert_eq!(refused("/\0", Resolve::BENEATH), at_once(Errno::EINVAL));
        assert_eq!(refused(&"/".repeat(4_096), Resolve::BENEATH), at_once(Errno::ENAMETOOLONG));
        assert_eq!(refused("/lab", both), at_once(Errno::EINVAL));
        assert_eq!(refused("", NOTHING), at_once(Errno::ENOENT));
    }
}

/// A good handle is the root under IN_ROOT, and never left if it is marked.
#[test]
fn good_handles_answer_as_before() {
    let run = Handle::new(1, 8);
    for (handle, path, resolve, expected) in [
        (run, ".", NOTHING, "(1,8); 1 component, 0 links"),
        (run, "/run", Resolve::IN_ROOT, "(1,9); 1 component, 0 links"),
        (run, "/lab", Resolve::IN_ROOT, "ENOENT (2); 1 component, 0 links"),
        (LAB, "/cal/abs", Resolve::IN_ROOT, "ENOENT (2); 3 components, 1 link"),
        (LAB.marked(), "/", NOTHING, "ENOENT (2); 0 components, 0 links"),
        (LAB.marked(), "/lab", Resolve::BENEATH, "ENOENT (2); 0 components, 0 links"),
        (LAB.marked(), "/cal", Resolve::IN_ROOT, "ENOENT (2); 0 components, 0 links"),
    ] {
        assert_eq!(answer(handle, path, resolve), expected, "{handle:?} {path} {resolve:?}");
    }
}
