//! The proved side: Ventolaire's own library, called as a C program would.
//!
//! What is measured goes by the C functions' declarations: by `bindings/rust` a
//! call costs some 60 instructions more, most of them for its `Result`, which is
//! 4 % of check-bench and 8 % of walk-tare; the plain side writes numbers too. All
//! else is `bindings/rust`: a walk's table is checked by `Table`, and answers have
//! to be the same by it.

use crate::descriptors::{self, Descriptors, Functions};
use crate::lookups;
use crate::plain;
use crate::slots::{Reply, SLOTS};
use crate::tables::Numbers;
use crate::walk::{Accepted, UNWRITTEN};
use data::sequence::Step;
use ventolaire::{Found, Handle, Refusal, Table};
use ventolaire_sys::{
    ventolaire_check, ventolaire_close, ventolaire_descriptors, ventolaire_dup,
    ventolaire_lookup_accepted, ventolaire_open, ventolaire_open_accepted,
    ventolaire_resolve_accepted, ventolaire_set_mark, ventolaire_start, ventolaire_start_accepted,
    Open,
};

pub fn check(image: &[u8]) -> Numbers {
    let mut out = [UNWRITTEN; 2];
    // SAFETY: each pointer goes with the length of a slice that outlives the
    // call, and the library writes to `out` alone.
    unsafe { ventolaire_check(image.as_ptr(), image.len(), out.as_mut_ptr(), out.len()) };
    let [rule, record] = out;
    [rule, record, 0, 0, 0, 0]
}

/// The image for walks by the library, which accepts it.
pub fn accepted(image: &[u8]) -> Accepted<'_> {
    let table = table(image);
    // SAFETY: the library accepted the image, which is borrowed from now on.
    unsafe { Accepted::new(table.image(), ventolaire_resolve_accepted) }
}

/// The image for lookups by the library, which accepts it.
pub fn lookups(image: &[u8]) -> lookups::Accepted<'_> {
    let table = table(image);
    // SAFETY: the library accepted the image, which is borrowed from now on.
    unsafe { lookups::Accepted::new(table.image(), ventolaire_lookup_accepted) }
}

pub fn table(image: &[u8]) -> Table<'_> {
    Table::new(image).expect("walks are over accepted tables")
}

/// The answers of `bindings/rust` with the check before each call and, where it accepts the table,
/// by `Table`; then that of the walk that is measured.
pub fn resolve(image: &[u8], handle: plain::Handle, path: &[u8], how: &[u8]) -> Vec<Numbers> {
    let asked = Handle { mount: handle.mount, node: handle.node, mark: handle.mark };
    let mut answers = vec![numbers(ventolaire::resolve_raw(image, asked, path, how))];
    if let Ok(table) = Table::new(image) {
        answers.push(numbers(table.resolve_raw(asked, path, how)));
        answers.push(accepted(image).resolve(handle, path, how));
    }
    answers
}

fn numbers(answer: Result<Found, Refusal>) -> Numbers {
    match answer {
        Ok(Found { place, components, links, .. }) => {
            [0, Refusal::NO_DETAIL, place.mount, place.node, components, links]
        }
        Err(Refusal { errno, detail, components, links, .. }) => {
            [errno.number(), detail, 0, 0, components, links]
        }
    }
}

impl descriptors::Table for ventolaire_descriptors {
    fn put_back(&mut self, before: &Self, slot: usize) {
        self.slots[slot] = before.slots[slot];
    }
}

/// Slots that no start leaves as they are.
const UNSTARTED: ventolaire_descriptors = ventolaire_descriptors { slots: [UNWRITTEN; SLOTS] };

fn functions(open: Open) -> Functions<ventolaire_descriptors> {
    Functions {
        resolve: ventolaire_resolve_accepted,
        open,
        dup: ventolaire_dup,
        close: ventolaire_close,
        set_mark: ventolaire_set_mark,
    }
}

/// Descriptors over an image that the library accepts.
pub fn descriptors(image: &[u8]) -> Descriptors<'_, ventolaire_descriptors> {
    let table = table(image);
    let image = table.image();
    let mut slots = UNSTARTED;
    // SAFETY: the library accepted the image, which is borrowed from now on; the slots are lent to
    // be written.
    unsafe {
        ventolaire_start_accepted(image.as_ptr(), image.len(), &mut slots);
        Descriptors::new(image, functions(ventolaire_open_accepted), slots)
    }
}

/// Descriptors over any image, which each open checks, and the answer of their start.
pub fn started(image: &[u8]) -> ([u64; 2], Descriptors<'_, ventolaire_descriptors>) {
    let mut out = [UNWRITTEN; 2];
    let mut slots = UNSTARTED;
    // SAFETY: each pointer goes with the length of a slice that outlives the call, and the library
    // writes to the slots and to `out` alone, whatever the image is.
    unsafe {
        let (image, out, len) = ((image.as_ptr(), image.len()), out.as_mut_ptr(), out.len());
        ventolaire_start(image.0, image.1, &mut slots, out, len);
    }
    // SAFETY: the same.
    (out, unsafe { Descriptors::new(image, functions(ventolaire_open), slots) })
}

/// A call on descriptors by `bindings/rust`.
pub fn make(descriptors: &mut ventolaire::Descriptors, step: &Step) -> Reply {
    let given = |descriptor| ([0, Refusal::NO_DETAIL, 0, 0, 0, 0], descriptor);
    let reply = match step {
        Step::Open(open) => {
            let opened = descriptors.open_raw(open.number, open.mark, &open.path, &open.how);
            opened.map(|opened| (numbers(Ok(opened.found)), opened.descriptor))
        }
        Step::Dup(number) => descriptors.duplicate(*number).map(given),
        Step::Close(number) => descriptors.close(*number).map(|()| given(0)),
        Step::SetMark(number) => descriptors.set_mark(*number).map(|()| given(0)),
    };
    let (answer, descriptor) = reply.unwrap_or_else(|refusal| (numbers(Err(refusal)), 0));
    let [errno, detail, mount, node, components, links] = answer;
    [errno, detail, mount, node, components, links, descriptor]
}
