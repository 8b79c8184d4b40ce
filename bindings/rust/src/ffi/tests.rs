//! What the C functions write, and where.

use super::*;
use crate::bench_tree::{IMAGE, TABLE};
use crate::Errno;
use std::ptr;
use ventolaire_sys::{ventolaire_errnos, ventolaire_open, ventolaire_start};

const ROOM: usize = 14;

/// Offers outputs of all lengths to a function: too short, it writes
/// nothing; else the answer and not a number more.
fn writes_all_or_nothing<const N: usize>(
    answer: [u64; N],
    call: impl Fn(*mut u64, usize) -> usize,
) {
    for out_len in 0..=ROOM {
        let mut out = [UNWRITTEN; ROOM];
        let written = call(out.as_mut_ptr(), out_len);
        assert_eq!(written, if out_len < N { 0 } else { N });
        assert_eq!(out[..written], answer[..written]);
        assert!(out[written..].iter().all(|&number| number == UNWRITTEN));
    }
    assert_eq!(call(ptr::null_mut(), 0), 0);
}

/// The same of a function that may write to descriptors: where it writes no answer, or a refusal,
/// they stay as they were.
fn replies_whole_or_not_at_all(
    reply: [u64; 7],
    before: Slots,
    call: impl Fn(&mut Slots, *mut u64, usize) -> usize,
) {
    writes_all_or_nothing(reply, |out, out_len| {
        let mut slots = before;
        let written = call(&mut slots, out, out_len);
        assert_eq!(slots != before, written > 0 && reply[0] == 0);
        written
    });
}

fn started() -> Slots {
    start_accepted(&Table::new(IMAGE).unwrap())
}

/// A function that opens, and whether the mark is asked for.
type Opens = (Open, bool);

/// Opens from descriptor 0 in the bench tree.
fn open_from_0(
    (function, mark): Opens,
    slots: &mut Slots,
    path: &[u8],
    how: &[u8],
    out: *mut u64,
    out_len: usize,
) -> usize {
    let (image, len) = (IMAGE.as_ptr(), IMAGE.len());
    // SAFETY: as below.
    unsafe {
        function(
            image,
            len,
            slots,
            0,
            mark,
            path.as_ptr(),
            path.len(),
            how.as_ptr(),
            how.len(),
            out,
            out_len,
        )
    }
}

// SAFETY of the calls below: as in the functions above them. No `out_len` is more than the room,
// and a null pointer goes with the length 0. The bench tree is accepted: each test that relies on
// it asserts it, or makes a table of it.

#[test]
fn outputs_are_written_whole_or_not_at_all() {
    let (path, how) = (b"cal/abs", [0; 24]);
    assert_eq!(check(IMAGE), [0, 0]);
    writes_all_or_nothing([0, 0], |out, out_len| unsafe {
        ventolaire_check(IMAGE.as_ptr(), IMAGE.len(), out, out_len)
    });
    for function in [ventolaire_resolve as Resolve, ventolaire_resolve_accepted] {
        writes_all_or_nothing([0, 255, 0, 3, 5, 1], |out, out_len| unsafe {
            function(
                IMAGE.as_ptr(),
                IMAGE.len(),
                0,
                1,
                false,
                path.as_ptr(),
                path.len(),
                how.as_ptr(),
                how.len(),
                out,
                out_len,
            )
        });
    }
    for (name, answer) in [(&b"fd"[..], [0, 4, 10, 3]), (b"nope", [2, 0, 0, 3])] {
        for function in [ventolaire_lookup as Lookup, ventolaire_lookup_accepted] {
            let (image, len) = (IMAGE.as_ptr(), IMAGE.len());
            writes_all_or_nothing(answer, |out, out_len| unsafe {
                function(image, len, 2, name.as_ptr(), name.len(), out, out_len)
            });
        }
    }
}

#[test]
fn replies_are_written_whole_or_not_at_all() {
    let before = started();
    for function in [ventolaire_open as Open, ventolaire_open_accepted] {
        let opened = [0, 255, 0, 2, 2, 0, 1];
        replies_whole_or_not_at_all(opened, before, |slots, out, out_len| {
            open_from_0((function, false), slots, b"lab/cal", &[0; 24], out, out_len)
        });
        let refused = [40, 255, 0, 0, 43, 40, 0];
        replies_whole_or_not_at_all(refused, before, |slots, out, out_len| {
            open_from_0((function, false), slots, b"lab/cal/loop", &[0; 24], out, out_len)
        });
    }
    for (number, errno) in [(0, 0), (1, 9), (64, 9), (u64::MAX, 9)] {
        let done = [errno, 255, 0, 0, 0, 0, 0];
        let given = [errno, 255, 0, 0, 0, 0, u64::from(errno == 0)];
        replies_whole_or_not_at_all(given, before, |slots, out, out_len| unsafe {
            ventolaire_dup(slots, number, out, out_len)
        });
        replies_whole_or_not_at_all(done, before, |slots, out, out_len| unsafe {
            ventolaire_close(slots, number, out, out_len)
        });
        replies_whole_or_not_at_all(done, before, |slots, out, out_len| unsafe {
            ventolaire_set_mark(IMAGE.as_ptr(), IMAGE.len(), slots, number, out, out_len)
        });
    }
}

/// With too little room for the answer no image is written either, and behind one nothing is.
#[test]
fn a_build_is_written_whole_or_not_at_all() {
    let parts = Table::new(IMAGE).unwrap().parts();
    let broken = Parts { text: b"", ..parts };
    for (parts, room, answer) in [
        (parts, 316, [0, 0, 0, 316]),
        (parts, 400, [0, 0, 0, 316]),
        (parts, 315, [34, 0, 0, 316]),
        (parts, 0, [34, 0, 0, 316]),
        (broken, 400, [117, 4, 4, 0]),
        (broken, 0, [117, 4, 4, 0]),
    ] {
        writes_all_or_nothing(answer, |out, out_len| {
            let mut buffer = [0xff; 400];
            let to = (buffer.as_mut_ptr(), room);
            let written = unsafe { build_to(&parts, to, (out, out_len)) };
            let is_built = written > 0 && answer[0] == 0;
            assert_eq!(check(&buffer[..316]) == [0, 0], is_built);
            let untouched = if is_built { 316 } else { 0 };
            assert!(buffer[untouched..].iter().all(|byte| *byte == 0xff));
            written
        });
    }
}

/// With too little room for the verdict the descriptors are not written either.
#[test]
fn a_start_is_written_whole_or_not_at_all() {
    let before = Slots { slots: [UNWRITTEN; VENTOLAIRE_DESCRIPTORS] };
    let closed = Slots { slots: [CLOSED; VENTOLAIRE_DESCRIPTORS] };
    for (image, verdict, after) in [(IMAGE, [0, 0], started()), (b"", [1, 0], closed)] {
        writes_all_or_nothing(verdict, |out, out_len| {
            let mut slots = before;
            let written =
                unsafe { ventolaire_start(image.as_ptr(), image.len(), &mut slots, out, out_len) };
            assert_eq!(slots, if written == 0 { before } else { after });
            written
        });
    }
    assert!(started().slots[0] != CLOSED);
    assert_eq!(started().slots[1..], closed.slots[1..]);
}

/// Three numbers came later: who has room for the nine of the first version gets these, who has
/// room for the eleven of the second gets those.
#[test]
fn errnos_are_as_many_as_there_is_room_for() {
    let numbers = [117, 7, 22, 36, 2, 9, 20, 40, 18, 24, 25, 34];
    for out_len in 0..=ROOM {
        let mut out = [UNWRITTEN; ROOM];
        let written = unsafe { ventolaire_errnos(out.as_mut_ptr(), out_len) };
        let expected = match out_len {
            0..9 => 0,
            9..11 => 9,
            11 => 11,
            _ => 12,
        };
        assert_eq!((written, &out[..written]), (expected, &numbers[..expected]));
        assert!(out[written..].iter().all(|&number| number == UNWRITTEN));
    }
    assert_eq!(unsafe { ventolaire_errnos(ptr::null_mut(), 0) }, 0);
    assert_eq!(Errno::ALL.iter().map(|errno| errno.number()).collect::<Vec<_>>(), numbers);
    assert_eq!(numbers.map(Errno::from_number), Errno::ALL);
}

#[test]
fn over_an_accepted_table_the_answer_is_the_same() {
    let table = Table::new(IMAGE).unwrap();
    let both = |handle: Handle, path: &[u8], how: &[u8]| {
        let answer = resolve(IMAGE, handle, path, how);
        assert_eq!(resolve_accepted(&table, handle, path, how), answer);
    };
    for row in TABLE {
        let how = row.how.to_bytes();
        both(row.handle, row.path.as_bytes(), &how);
        both(Handle::new(u64::MAX, 0), row.path.as_bytes(), &how);
        both(row.handle, b"", &how);
        both(row.handle, row.path.as_bytes(), &how[1..]);
    }
    for node in (0..13).chain([1 << 16, 1 << 32, u64::MAX]) {
        for name in table.entries().map(|entry| entry.name).chain([&b""[..], b"nope", b"\0"]) {
            assert_eq!(lookup_accepted(&table, node, name), lookup(IMAGE, node, name));
        }
    }
}

#[test]
fn over_an_accepted_table_the_reply_is_the_same() {
    let table = Table::new(IMAGE).unwrap();
    let (mut checked, mut accepted) = (started(), started());
    let mut both = |call: (u64, bool), path: &[u8], how: &[u8]| {
        // SAFETY: this function takes any bytes for an image.
        let reply = unsafe { open_by(ventolaire_open, IMAGE, &mut checked, call, path, how) };
        assert_eq!(open_accepted(&table, &mut accepted, call.0, call.1, path, how), reply);
        assert_eq!(checked, accepted);
    };
    both((0, false), b"lab", &[0; 24]);
    for (number, mark) in [(1, false), (1, true), (0, false), (2, false), (9, true)] {
        for row in TABLE {
            both((number, mark), row.path.as_bytes(), &row.how.to_bytes());
        }
        both((number, mark), b"", &[0; 24]);
        both((number, mark), b"cal", &[0; 23]);
    }
}

#[test]
fn null_goes_with_no_bytes() {
    let mut out = [UNWRITTEN; 6];
    let null = ptr::null();
    let written = unsafe { ventolaire_check(null, 0, out.as_mut_ptr(), 2) };
    assert_eq!((written, &out[..2]), (2, &[1, 0][..]));

    let how = [0; 24];
    let mut resolve = |how_len: usize| unsafe {
        let how = if how_len == 0 { null } else { how.as_ptr() };
        let (image, len) = (IMAGE.as_ptr(), IMAGE.len());
        ventolaire_resolve(image, len, 0, 1, false, null, 0, how, how_len, out.as_mut_ptr(), 6);
        out
    };
    assert_eq!(resolve(24), [2, 255, 0, 0, 0, 0]);
    assert_eq!(resolve(0), [22, 255, 0, 0, 0, 0]);

    let mut lookup = |image: *const u8, len: usize| unsafe {
        let written = ventolaire_lookup(image, len, 2, null, 0, out.as_mut_ptr(), 6);
        (written, [out[0], out[1], out[2], out[3]])
    };
    assert_eq!(lookup(IMAGE.as_ptr(), IMAGE.len()), (4, [2, 0, 0, 2]));
    assert_eq!(lookup(null, 0), (4, [117, 0, 0, 0]));
}

/// Of the parts only the entries and the text may be empty in a tree that keeps the rules.
#[test]
fn null_goes_with_no_bytes_of_a_build() {
    let (null, directory, mount) = (ptr::null(), [1, 0, 0, 0, 0, 0, 0, 0, 0, 0, 0, 0], [0; 8]);
    let (mut buffer, mut out) = ([0xff; 40], [UNWRITTEN; 4]);
    let mut build = |nodes: (*const u8, usize), mounts: (*const u8, usize), room: usize| {
        let to = if room == 0 { ptr::null_mut() } else { buffer.as_mut_ptr() };
        let (nodes, nodes_len) = nodes;
        let (mounts, mounts_len) = mounts;
        let answer = out.as_mut_ptr();
        unsafe {
            ventolaire_build(
                nodes, nodes_len, mounts, mounts_len, null, 0, null, 0, to, room, answer, 4,
            )
        };
        out
    };
    let (nodes, mounts) = ((directory.as_ptr(), 12), (mount.as_ptr(), 8));
    assert_eq!(build((null, 0), (null, 0), 0), [117, 3, 0, 0]);
    assert_eq!(build(nodes, (null, 0), 40), [117, 3, 0, 0]);
    assert_eq!(build((null, 0), mounts, 40), [117, 3, 0, 0]);
    assert_eq!(build(nodes, mounts, 0), [34, 0, 0, 40]);
    assert_eq!(build(nodes, mounts, 40), [0, 0, 0, 40]);
    assert_eq!(check(&buffer), [0, 0]);
}

#[test]
fn null_goes_with_no_bytes_of_a_script() {
    let (null, mut slots, mut out) = (ptr::null(), started(), [UNWRITTEN; 7]);
    let how = [0; 24];
    let mut open = |image: &[u8], mark: bool, how_len: usize| unsafe {
        let how = if how_len == 0 { null } else { how.as_ptr() };
        let (at, len) = (if image.is_empty() { null } else { image.as_ptr() }, image.len());
        let to = out.as_mut_ptr();
        ventolaire_open(at, len, &mut slots, 0, mark, null, 0, how, how_len, to, 7);
        out[0]
    };
    assert_eq!([open(IMAGE, false, 24), open(IMAGE, false, 0), open(IMAGE, true, 0)], [2, 22, 22]);
    // The mark is looked at before the image.
    assert_eq!([open(b"", false, 24), open(b"", true, 24)], [117, 22]);
    assert_eq!(slots, started());

    let written = unsafe { ventolaire_set_mark(null, 0, &mut slots, 0, out.as_mut_ptr(), 7) };
    assert_eq!((written, out, slots), (7, [25, 255, 0, 0, 0, 0, 0], started()));
    let written = unsafe { ventolaire_start(null, 0, &mut slots, out.as_mut_ptr(), 2) };
    assert_eq!((written, &out[..2]), (2, &[1, 0][..]));
    assert_eq!(slots.slots, [CLOSED; VENTOLAIRE_DESCRIPTORS]);
}

/// Numbers that the library has not written stand for some descriptors too.
#[test]
fn descriptors_may_be_any_numbers() {
    let table = Table::new(IMAGE).unwrap();
    for slot in [1, 2, 3, 1 << 31, 1 << 32, 1 << 63, u64::MAX - 1, u64::MAX] {
        let before = Slots { slots: [slot; VENTOLAIRE_DESCRIPTORS] };
        let mut slots = before;
        assert_eq!(duplicate(&mut slots, 63), [24, 255, 0, 0, 0, 0, 0], "{slot}");
        let reply = open_accepted(&table, &mut slots, 63, false, b"lab", &[0; 24]);
        assert!([2, 9, 20, 24].contains(&reply[0]), "{slot}: {reply:?}");
        assert_eq!(slots, before, "{slot}");
        assert_eq!(close(&mut slots, 63)[0], 0, "{slot}");
        assert_eq!(close(&mut slots, 63)[0], 9, "{slot}");
        assert_eq!(duplicate(&mut slots, 0), [0, 255, 0, 0, 0, 0, 63], "{slot}");
        assert_eq!(slots, before, "{slot}");
    }
}
