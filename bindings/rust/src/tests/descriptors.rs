//! Descriptors, and the plain list of 64 slots that they answer as.

use crate::bench_tree::{IMAGE, TABLE};
use crate::*;

const NOTHING: OpenHow = OpenHow::new();
/// For a link itself.
const UNFOLLOWED: Flags = Flags::PATH.union(Flags::NOFOLLOW);

fn bench() -> Descriptors<'static> {
    Table::new(IMAGE).unwrap().descriptors()
}

/// The number given.
fn given(opened: Result<Opened, Refusal>) -> Result<u64, Errno> {
    opened.map(|opened| opened.descriptor).map_err(|refusal| refusal.errno)
}

/// The errno of a refusal that is the descriptors' own: "detail 255 and counts 0, as before a
/// walk".
fn own<T: std::fmt::Debug>(reply: Result<T, Refusal>) -> Errno {
    let refusal = reply.unwrap_err();
    assert_eq!(refusal, Refusal::from(refusal.errno));
    refusal.errno
}

/// "Only descriptor 0 starts open, unmarked, on mount 0's root".
#[test]
fn descriptor_0_alone_starts_open() {
    let mut descriptors = bench();
    assert!(descriptors.numbers().eq([0]));
    let root = descriptors.open(0, ".", NOTHING).unwrap();
    assert_eq!(root.to_string(), "1 = (0,0); 1 component, 0 links");
    assert!(descriptors.open(0, "..", NOTHING).is_ok());

    // That root need not be node 0.
    let mut image = IMAGE.to_vec();
    let mount = 20 + 12 * 12;
    (image[mount], image[mount + 4]) = (1, 1);
    let mut descriptors = Table::new(&image).unwrap().descriptors();
    let found = descriptors.open(0, "cal", NOTHING).unwrap().found;
    assert_eq!(found.place, Place { mount: 0, node: 2 });
}

/// "duplicate (either gives the lowest free number)"; "Closed numbers are used again."
#[test]
fn the_lowest_free_number_is_given() {
    let mut descriptors = bench();
    for number in 1..Descriptors::COUNT {
        match number % 2 {
            0 => assert_eq!(given(descriptors.open(0, "lab", NOTHING)), Ok(number)),
            _ => assert_eq!(descriptors.duplicate(0), Ok(number)),
        }
    }
    for number in [63, 7, 40, 0] {
        descriptors.close(number).unwrap();
    }
    assert_eq!(given(descriptors.open(2, "cal", NOTHING)), Ok(0));
    assert_eq!(descriptors.duplicate(0), Ok(7));
    assert_eq!(given(descriptors.open(7, "up", UNFOLLOWED)), Ok(40));
    assert_eq!(descriptors.duplicate(40), Ok(63));
    assert_eq!(own(descriptors.duplicate(40)), Errno::EMFILE);
    // All may be closed, and then nothing leads further.
    (0..64).for_each(|number| descriptors.close(number).unwrap());
    assert_eq!(descriptors.numbers().count(), 0);
    assert_eq!(own(descriptors.duplicate(0)), Errno::EBADF);
}

/// "EBADF for a closed number or one above 63, whatever the path".
#[test]
fn a_number_that_is_not_open_is_refused_before_all_else() {
    let mut descriptors = bench();
    for number in [1, 63, 64, 1 << 32, u64::MAX] {
        for path in [&b"lab"[..], b"/lab", b"", b"\0", &[b'/'; 4_096]] {
            for how in [&[0; 24][..], &[], &[255; 24], &[0; 4_097]] {
                assert_eq!(own(descriptors.open_raw(number, true, path, how)), Errno::EBADF);
                assert_eq!(own(descriptors.open_raw(number, false, path, how)), Errno::EBADF);
            }
        }
        assert_eq!(own(descriptors.duplicate(number)), Errno::EBADF);
        assert_eq!(own(descriptors.close(number)), Errno::EBADF);
        assert_eq!(own(descriptors.set_mark(number)), Errno::EBADF);
    }
    assert_eq!(descriptors, bench());
}

/// "asking for it without O_DIRECTORY is EINVAL", before "the resolver's own refusal".
#[test]
fn the_mark_wants_o_directory() {
    let mut descriptors = bench();
    let with_bit_18 = |flags: Flags| OpenHow::from(flags | Flags::from_bits_retain(1 << 18));
    for how in [NOTHING, Flags::PATH.into(), with_bit_18(Flags::empty()), Resolve::all().into()] {
        for path in [&b"lab"[..], b"none", b"", b"\0", &[b'/'; 4_096]] {
            assert_eq!(own(descriptors.open_marked(0, path, how)), Errno::EINVAL);
        }
    }
    // It is asked of all that have their 24 bytes, also of one that is too long.
    assert_eq!(own(descriptors.open_raw(0, true, "lab", [0; 23])), Errno::EINVAL);
    assert_eq!(own(descriptors.open_raw(0, true, "lab", [0; 4_097])), Errno::EINVAL);
    assert_eq!(own(descriptors.open_raw(0, false, "lab", [0; 4_097])), Errno::E2BIG);

    // With O_DIRECTORY the resolver has its say.
    let refusal = descriptors.open_marked(0, "lab", with_bit_18(Flags::DIRECTORY)).unwrap_err();
    assert_eq!(refusal.unknown_bit(), Some(UnknownBit::Flags(18)));
    let refusal = descriptors.open_marked(0, "lab/cal/tare", Flags::DIRECTORY).unwrap_err();
    assert_eq!(refusal.to_string(), "ENOTDIR (20); 3 components, 0 links");
    assert_eq!(descriptors, bench());
    assert_eq!(given(descriptors.open_marked(0, "lab", Flags::DIRECTORY)), Ok(1));
}

/// "last EMFILE (24), for opening or duplicating exactly when nothing before it applies and all 64
/// are open".
#[test]
fn emfile_comes_last() {
    let mut descriptors = bench();
    while descriptors.duplicate(0).is_ok() {}
    let full = descriptors.clone();
    assert_eq!(own(descriptors.open(0, "lab/cal/abs", NOTHING)), Errno::EMFILE);
    assert_eq!(own(descriptors.open_marked(0, "lab", Flags::DIRECTORY)), Errno::EMFILE);
    assert_eq!(own(descriptors.duplicate(0)), Errno::EMFILE);
    assert_eq!(own(descriptors.duplicate(64)), Errno::EBADF);
    assert_eq!(own(descriptors.open_marked(0, "lab", NOTHING)), Errno::EINVAL);
    let refusal = descriptors.open(0, "lab/cal/loop", NOTHING).unwrap_err();
    assert_eq!(refusal.to_string(), "ELOOP (40); 43 components, 40 links");
    assert_eq!(descriptors, full);
    // Nothing is given to these.
    descriptors.set_mark(63).unwrap();
    descriptors.close(63).unwrap();
    assert_eq!(descriptors.numbers().count(), 63);
}

/// "Duplicates keep the mark but share none set later; a descriptor opened through a marked one is
/// unmarked unless asked."
#[test]
fn marks_are_kept_and_not_shared() {
    let is_marked = |number: u64, script: &Descriptors<'static>| {
        given(script.clone().open(number, "/", NOTHING)) == Err(Errno::ENOENT)
    };
    let mut script = bench();
    let lab = script.open_marked(0, "lab", Flags::DIRECTORY).unwrap().descriptor;
    let (copy, plain) = (script.duplicate(lab).unwrap(), script.duplicate(0).unwrap());
    let inside = script.open(lab, "cal", NOTHING).unwrap().descriptor;
    let asked = script.open_marked(lab, "cal", Flags::DIRECTORY).unwrap().descriptor;
    let marks = [0, lab, copy, plain, inside, asked].map(|number| is_marked(number, &script));
    assert_eq!(marks, [false, true, true, false, false, true]);

    script.set_mark(plain).unwrap();
    let twice = script.clone();
    script.set_mark(plain).unwrap();
    assert_eq!(script, twice);
    assert!(is_marked(plain, &script) && !is_marked(0, &script));
    // A number that is given again has no mark of the one before.
    script.close(lab).unwrap();
    assert_eq!(given(script.open(copy, ".", NOTHING)), Ok(lab));
    assert!(!is_marked(lab, &script));
}

/// "setting it on a non-directory is ENOTTY (25)". Only an absolute path does without the handle.
#[test]
fn files_and_links_are_held_but_lead_nowhere() {
    let mut descriptors = bench();
    for (path, how) in [("lab/cal/tare", NOTHING), ("lab/cal/up", UNFOLLOWED.into())] {
        let number = given(descriptors.open(0, path, how)).unwrap();
        let before = descriptors.clone();
        assert_eq!(own(descriptors.set_mark(number)), Errno::ENOTTY);
        for path in [".", "..", "x"] {
            assert_eq!(own(descriptors.open(number, path, NOTHING)), Errno::ENOTDIR);
        }
        assert_eq!(own(descriptors.open(number, "/", Resolve::IN_ROOT)), Errno::ENOTDIR);
        assert_eq!(own(descriptors.open(number, "/", Resolve::BENEATH)), Errno::EXDEV);
        assert_eq!(descriptors, before);
        let lab = descriptors.open(number, "/lab", NOTHING).unwrap();
        assert_eq!(lab.to_string(), "2 = (0,1); 1 component, 0 links");
        descriptors.close(lab.descriptor).unwrap();
        let copy = descriptors.duplicate(number).unwrap();
        assert_eq!(own(descriptors.set_mark(copy)), Errno::ENOTTY);
        descriptors.close(number).unwrap();
        descriptors.close(copy).unwrap();
    }
    assert_eq!(descriptors, bench());
}

/// A magic link leads to a covered directory, which is no good handle, and is checked if it is
/// marked. It is a directory all the same.
#[test]
fn a_covered_directory_is_held_but_leads_nowhere() {
    let mut image = IMAGE.to_vec();
    // The node of the target of "fd": pool.
    image[20 + 12 * 10 + 8] = 7;
    let mut descriptors = Table::new(&image).unwrap().descriptors();
    let opened = descriptors.open(0, "lab/cal/fd", NOTHING).unwrap();
    assert_eq!(opened.to_string(), "1 = (0,7); 3 components, 1 link");
    assert_eq!(own(descriptors.open(1, ".", NOTHING)), Errno::EBADF);
    // ".." at the handle, which nothing forbids.
    let lab = descriptors.open(1, "/lab/cal/fd/..", NOTHING).unwrap();
    assert_eq!(lab.to_string(), "2 = (0,1); 4 components, 1 link");
    descriptors.set_mark(1).unwrap();
    assert_eq!(own(descriptors.open(1, "/", NOTHING)), Errno::EBADF);
    assert_eq!(own(descriptors.open(1, ".", NOTHING)), Errno::EBADF);
    assert_eq!(descriptors.duplicate(1), Ok(3));
}

#[test]
fn the_worked_table_is_answered_through_descriptors() {
    for row in TABLE {
        let mut descriptors = bench();
        assert_eq!(given(descriptors.open(0, "lab", NOTHING)), Ok(1));
        if row.handle.mark {
            descriptors.set_mark(1).unwrap();
        }
        let opened = descriptors.open(1, row.path, row.how);
        assert_eq!(opened.map(|opened| opened.found), row.answer, "{row:?}");
        assert_eq!(descriptors.is_open(2), row.answer.is_ok(), "{row:?}");
    }
}

#[test]
fn descriptors_are_cloned_compared_and_shown() {
    fn sent<T: Clone + Send + Sync>(_: &T) {}
    let mut descriptors = bench();
    sent(&descriptors);
    let clone = descriptors.clone();
    assert_eq!(descriptors.duplicate(0), Ok(1));
    assert!(descriptors != clone && clone == bench());
    let shown = "Descriptors { table: Table { nodes: 12, mounts: 2, entries: 10, .. }, open: ";
    assert_eq!(format!("{descriptors:?}"), format!("{shown}[0, 1] }}"));

    // The image counts by its bytes. The one changed is in a link's body.
    let mut image = IMAGE.to_vec();
    assert_eq!(Table::new(&image).unwrap().descriptors(), clone);
    image[IMAGE.len() - 2] = b'.';
    assert_ne!(Table::new(&image).unwrap().descriptors(), clone);
}

/// "any sequence of calls should answer as a plain list of 64 slots does."
struct Plain<'a> {
    table: Table<'a>,
    slots: [Option<Handle>; 64],
}

impl Plain<'_> {
    fn held(&self, number: u64) -> Result<Handle, Refusal> {
        let slot = usize::try_from(number).ok().and_then(|number| self.slots.get(number));
        slot.copied().flatten().ok_or(Errno::EBADF.into())
    }

    fn give(&mut self, handle: Handle) -> Result<u64, Refusal> {
        let free = self.slots.iter().position(Option::is_none).ok_or(Errno::EMFILE)?;
        self.slots[free] = Some(handle);
        Ok(free as u64)
    }

    fn open(
        &mut self,
        number: u64,
        mark: bool,
        path: &[u8],
        how: &[u8],
    ) -> Result<Opened, Refusal> {
        let handle = self.held(number)?;
        if let Some((flags, _)) = how.split_first_chunk::<8>().filter(|_| mark && how.len() >= 24) {
            let flags = Flags::from_bits_retain(u64::from_le_bytes(*flags));
            if !flags.contains(Flags::DIRECTORY) {
                return Err(Errno::EINVAL.into());
            }
        }
        let found = self.table.resolve_raw(handle, path, how)?;
        let descriptor = self.give(Handle { mark, ..found.place.into() })?;
        Ok(Opened { descriptor, found })
    }

    fn duplicate(&mut self, number: u64) -> Result<u64, Refusal> {
        let handle = self.held(number)?;
        self.give(handle)
    }

    fn close(&mut self, number: u64) -> Result<(), Refusal> {
        self.held(number)?;
        self.slots[number as usize] = None;
        Ok(())
    }

    fn set_mark(&mut self, number: u64) -> Result<(), Refusal> {
        let handle = self.held(number)?;
        match self.table.node(handle.node) {
            Some(Node::Directory { .. }) => {
                self.slots[number as usize] = Some(handle.marked());
                Ok(())
            }
            _ => Err(Errno::ENOTTY.into()),
        }
    }
}

/// Numbers by chance, the same for the same seed.
pub struct Dice(pub u32);

impl Dice {
    pub fn below(&mut self, bound: usize) -> usize {
        self.0 = self.0.wrapping_mul(1_664_525).wrapping_add(1_013_904_223);
        (self.0 >> 8) as usize % bound
    }

    fn number(&mut self) -> u64 {
        match self.below(40) {
            0 => 64 + self.below(3) as u64,
            1 => u64::MAX,
            2..15 => self.below(64) as u64,
            _ => self.below(6) as u64,
        }
    }

    fn how(&mut self) -> Vec<u8> {
        let [zero, one] = [0, 1].map(|_| self.below(3));
        let flags = [NOTHING.flags, Flags::DIRECTORY, UNFOLLOWED][zero];
        let resolve = [NOTHING.resolve, NOTHING.resolve, Resolve::BENEATH][one];
        let mut how = OpenHow { flags, resolve }.to_bytes().to_vec();
        match self.below(20) {
            0 => how.truncate(self.below(24)),
            1 => how[self.below(24)] |= 1 << self.below(8),
            2 => how.extend([0; 4]),
            _ => {}
        }
        how
    }
}

const PATHS: [&str; 14] = [
    "",
    "/",
    ".",
    "..",
    "lab",
    "cal",
    "tare",
    "lab/cal",
    "lab/pool/run",
    "fd",
    "up",
    "loop",
    "lab/cal/fd",
    "/lab/cal/abs",
];

/// Makes a call of both; the call and both replies as text.
fn call_both(dice: &mut Dice, proved: &mut Descriptors, plain: &mut Plain) -> [String; 3] {
    let number = dice.number();
    match dice.below(12) {
        0 | 1 => [
            format!("dup {number}"),
            format!("{:?}", proved.duplicate(number)),
            format!("{:?}", plain.duplicate(number)),
        ],
        2 => [
            format!("close {number}"),
            format!("{:?}", proved.close(number)),
            format!("{:?}", plain.close(number)),
        ],
        3 => [
            format!("mark {number}"),
            format!("{:?}", proved.set_mark(number)),
            format!("{:?}", plain.set_mark(number)),
        ],
        _ => {
            let (mark, path) = (dice.below(3) == 0, PATHS[dice.below(PATHS.len())]);
            let how = dice.how();
            [
                format!("open {number} {path:?}, mark {mark}, open_how {how:02x?}"),
                format!("{:?}", proved.open_raw(number, mark, path, &how)),
                format!("{:?}", plain.open(number, mark, path.as_bytes(), &how)),
            ]
        }
    }
}

#[test]
fn any_sequence_answers_as_a_plain_list() {
    let mut to_pool = IMAGE.to_vec();
    to_pool[20 + 12 * 10 + 8] = 7;
    for seed in 0..200 {
        let table = Table::new(if seed % 2 == 0 { IMAGE } else { &to_pool }).unwrap();
        let (mut dice, mut proved) = (Dice(seed), table.descriptors());
        let mut plain = Plain { table, slots: [None; 64] };
        plain.slots[0] = Some(table.root());
        for step in 0..400 {
            let [call, reply, expected] = call_both(&mut dice, &mut proved, &mut plain);
            assert_eq!(reply, expected, "seed {seed}, step {step}: {call}");
            let open = (0..64).filter(|number| plain.slots[*number as usize].is_some());
            assert!(proved.numbers().eq(open), "seed {seed}, step {step}: {call}");
        }
    }
}
