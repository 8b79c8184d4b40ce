//! The library itself, by its C functions.
//!
//! Every pointer handed over goes with the length of its allocation, which lives through
//! the call. The pointers come from mutable borrows, so even a write through them would be
//! seen and not undefined; the output, the slots and the buffer have room behind what is
//! offered, for the same reason.

use super::{Handle, Lent, Slots, Subject, Way};
use crate::builder::Parts;
use crate::descriptors::SLOTS;
use crate::manifest::Rewritten;
use crate::resolver::Place;
use data::sequence::{Open, Step};
use std::collections::BTreeSet;
use ventolaire_sys::{
    ventolaire_build, ventolaire_check, ventolaire_close, ventolaire_descriptors, ventolaire_dup,
    ventolaire_lookup, ventolaire_lookup_accepted, ventolaire_open, ventolaire_open_accepted,
    ventolaire_resolve, ventolaire_set_mark, ventolaire_start, ventolaire_start_accepted,
};
// It is this crate that has the library linked.
use ventolaire::{BuildError, Manifest, ManifestError, Problem, Table};

/// What stands in the output before a call, and must still stand behind
/// the numbers written after it.
const UNTOUCHED: u64 = 0xA5A5_5A5A_C3C3_3C3C;
const ROOM: usize = 10;

/// The numbers written; all of the room if the subject wrote more than it
/// says, or says that it wrote more than it was given.
fn written(out: &[u64; ROOM], out_len: usize, count: usize) -> Vec<u64> {
    let beyond = out.iter().skip(count).any(|number| *number != UNTOUCHED);
    if beyond || count > out_len {
        out.to_vec()
    } else {
        out[..count].to_vec()
    }
}

/// Numbers before and behind the slots that are none.
const BESIDE: usize = 4;

/// Lends a copy of the slots with something before and behind, and takes it back. What
/// was written beside them shows as slots that have all the same number.
fn lend<T>(slots: &mut Slots, call: impl FnOnce(*mut ventolaire_descriptors) -> T) -> T {
    let mut lent = [UNTOUCHED; BESIDE + SLOTS + BESIDE];
    let inside = BESIDE..BESIDE + SLOTS;
    lent[inside.clone()].copy_from_slice(&slots[..]);
    let given = call(lent.as_mut_ptr().wrapping_add(BESIDE).cast());
    let beside = lent[..inside.start].iter().chain(&lent[inside.end..]);
    if beside.copied().all(|number| number == UNTOUCHED) {
        slots.copy_from_slice(&lent[inside]);
    } else {
        slots.fill(UNTOUCHED);
    }
    given
}

/// Bytes before and behind the buffer that are none of it.
const AROUND: usize = 64;
const UNTOUCHED_BYTE: u8 = 0xA5;

/// Lends a copy of the buffer with something before and behind, and takes it back. What was
/// written beside it shows as a buffer of which every byte is another.
fn lend_buffer<T>(buffer: &mut [u8], call: impl FnOnce(*mut u8) -> T) -> T {
    let around = [UNTOUCHED_BYTE; AROUND];
    let mut lent = [&around[..], buffer, &around].concat();
    let given = call(lent.as_mut_ptr().wrapping_add(AROUND));
    if lent.starts_with(&around) && lent.ends_with(&around) {
        buffer.copy_from_slice(&lent[AROUND..AROUND + buffer.len()]);
    } else {
        buffer.iter_mut().for_each(|byte| *byte = !*byte);
    }
    given
}

/// The library itself.
pub struct Linked;

impl Subject for Linked {
    fn check(&mut self, image: &mut [u8]) -> Vec<u64> {
        let mut out = [UNTOUCHED; ROOM];
        // SAFETY: as said above.
        let count =
            unsafe { ventolaire_check(image.as_mut_ptr(), image.len(), out.as_mut_ptr(), 2) };
        written(&out, 2, count)
    }

    fn resolve(&mut self, lent: &mut Lent, handle: Handle) -> Vec<u64> {
        let mut out = [UNTOUCHED; ROOM];
        // SAFETY: as said above.
        let count = unsafe {
            ventolaire_resolve(
                lent.image.as_mut_ptr(),
                lent.image.len(),
                handle.mount,
                handle.node,
                handle.mark,
                lent.path.as_mut_ptr(),
                lent.path.len(),
                lent.how.as_mut_ptr(),
                lent.how.len(),
                out.as_mut_ptr(),
                6,
            )
        };
        written(&out, 6, count)
    }

    fn start(&mut self, image: &mut [u8], slots: &mut Slots, room: usize) -> Vec<u64> {
        let mut out = [UNTOUCHED; ROOM];
        let (image, len) = (image.as_mut_ptr(), image.len());
        // SAFETY: as said above.
        let count = lend(slots, |slots| unsafe {
            ventolaire_start(image, len, slots, out.as_mut_ptr(), room)
        });
        written(&out, room, count)
    }

    fn start_accepted(&mut self, image: &mut [u8], slots: &mut Slots) {
        let (image, len) = (image.as_mut_ptr(), image.len());
        // SAFETY: as said above; and the caller's image is accepted.
        lend(slots, |slots| unsafe { ventolaire_start_accepted(image, len, slots) });
    }

    fn act(&mut self, image: &mut [u8], slots: &mut Slots, step: &mut Step, way: Way) -> Vec<u64> {
        let mut out = [UNTOUCHED; ROOM];
        let to = (out.as_mut_ptr(), way.room);
        let (image, len) = (image.as_mut_ptr(), image.len());
        // SAFETY: as said above.
        let count = lend(slots, |slots| unsafe {
            match step {
                Step::Open(open) => ask_open((image, len), slots, open, way.accepted, to),
                Step::Dup(number) => ventolaire_dup(slots, *number, to.0, to.1),
                Step::Close(number) => ventolaire_close(slots, *number, to.0, to.1),
                Step::SetMark(number) => {
                    ventolaire_set_mark(image, len, slots, *number, to.0, to.1)
                }
            }
        });
        written(&out, way.room, count)
    }

    fn lookup(&mut self, image: &mut [u8], node: u64, name: &mut [u8], way: Way) -> Vec<u64> {
        let function: ventolaire_sys::Lookup =
            if way.accepted { ventolaire_lookup_accepted } else { ventolaire_lookup };
        let mut out = [UNTOUCHED; ROOM];
        let (image, len) = (image.as_mut_ptr(), image.len());
        // SAFETY: as said above; and an image said to be accepted is.
        let count = unsafe {
            function(image, len, node, name.as_mut_ptr(), name.len(), out.as_mut_ptr(), way.room)
        };
        written(&out, way.room, count)
    }

    fn build(&mut self, parts: &mut Parts, buffer: &mut [u8], room: usize) -> Vec<u64> {
        let Parts { nodes, mounts, entries, text } = parts;
        let mut out = [UNTOUCHED; ROOM];
        let length = buffer.len();
        // SAFETY: as said above.
        let count = lend_buffer(buffer, |buffer| unsafe {
            ventolaire_build(
                nodes.as_mut_ptr(),
                nodes.len(),
                mounts.as_mut_ptr(),
                mounts.len(),
                entries.as_mut_ptr(),
                entries.len(),
                text.as_mut_ptr(),
                text.len(),
                buffer,
                length,
                out.as_mut_ptr(),
                room,
            )
        });
        written(&out, room, count)
    }

    /// By the crate: the library has no such function.
    fn part(&mut self, [first, second]: [&[u8]; 2], handle: Place) -> (BTreeSet<Place>, bool) {
        let (Ok(first), Ok(second)) = (Table::new(first), Table::new(second)) else {
            return (BTreeSet::new(), false);
        };
        let Place { mount, node } = handle;
        let Ok(part) = first.part(ventolaire::Handle::new(mount, node)) else {
            return (BTreeSet::new(), false);
        };
        let places = part.places().map(|reachable| reachable.place);
        let places = places.map(|place| Place { mount: place.mount, node: place.node });
        (places.collect(), part.in_common_with(&second).is_ok())
    }

    fn rewritten(&mut self, image: &[u8]) -> Rewritten {
        let broken = |error: ManifestError| match error.problem {
            Problem::Broken { broken, .. } => broken.rule,
            _ => 0,
        };
        let table = Table::new(image).map_err(|broken| broken.rule)?;
        let manifest = Manifest::try_from(&table).map_err(|error| match error {
            BuildError::Broken(broken) => broken.rule,
            _ => 0,
        })?;
        let read = Manifest::parse(manifest.to_string()).map_err(broken)?;
        let image = read.build().map_err(broken)?;
        // As it is, it gives the same as its text.
        match manifest.build() {
            Ok(same) if same == image => Ok(image),
            _ => Err(0),
        }
    }
}

/// An open by one of its two functions.
///
/// # Safety
///
/// The pointers go with their lengths; an image said to be accepted is.
unsafe fn ask_open(
    image: (*mut u8, usize),
    slots: *mut ventolaire_descriptors,
    open: &mut Open,
    accepted: bool,
    out: (*mut u64, usize),
) -> usize {
    let function: ventolaire_sys::Open =
        if accepted { ventolaire_open_accepted } else { ventolaire_open };
    let Open { number, mark, path, how, .. } = open;
    let (path, how) = ((path.as_mut_ptr(), path.len()), (how.as_mut_ptr(), how.len()));
    // SAFETY: as the caller has it.
    unsafe {
        function(
            image.0, image.1, slots, *number, *mark, path.0, path.1, how.0, how.1, out.0, out.1,
        )
    }
}
