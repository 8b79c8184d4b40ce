//! Descriptors in plain Rust: a list of 64 slots over the plain resolver, and the C
//! functions by which it is measured. The rules are RULES 17.

use crate::plain::{self, Errno, Found, Handle, Refusal, O_DIRECTORY};
use crate::side::resolved;
use data::sequence::Step;
use std::slice::{from_raw_parts, from_raw_parts_mut};

/// How many descriptors there are.
pub const SLOTS: usize = 64;

/// A call's reply as the proved library writes it: the six numbers of an answer, then
/// the descriptor given.
pub type Reply = [u64; 7];

#[derive(Clone, Copy, Debug)]
pub struct Slots(pub [Option<Handle>; SLOTS]);

/// A resolver: the one that checks the table first, or the one that wants it accepted.
type Resolver = fn(&[u8], Handle, &[u8], &[u8]) -> Result<Found, Refusal>;

impl Slots {
    /// Nothing is open.
    pub const CLOSED: Slots = Slots([None; SLOTS]);

    /// The descriptors that a script starts with.
    pub fn start(image: &[u8]) -> Slots {
        let mut slots = Slots::CLOSED;
        if plain::check(image).is_ok() {
            let root = plain::root(image).into();
            slots.0[0] = Some(Handle { mount: 0, node: root, mark: false });
        }
        slots
    }

    fn held(&mut self, number: u64) -> Result<&mut Handle, Refusal> {
        let slot = usize::try_from(number).ok().and_then(|number| self.0.get_mut(number));
        slot.and_then(Option::as_mut).ok_or(Refusal::before_walk(Errno::EBADF))
    }

    /// Puts a handle into the lowest slot that is free.
    fn give(&mut self, handle: Handle) -> Result<u64, Refusal> {
        let free = self.0.iter().position(Option::is_none);
        let free = free.ok_or(Refusal::before_walk(Errno::EMFILE))?;
        self.0[free] = Some(handle);
        Ok(free as u64)
    }

    pub fn open(
        &mut self,
        (image, resolve): (&[u8], Resolver),
        (number, mark): (u64, bool),
        path: &[u8],
        how: &[u8],
    ) -> Result<(Found, u64), Refusal> {
        let handle = *self.held(number)?;
        if mark && plain::flags(how).is_some_and(|flags| flags & O_DIRECTORY == 0) {
            return Err(Refusal::before_walk(Errno::EINVAL));
        }
        let found = resolve(image, handle, path, how)?;
        let (mount, node) = (found.place.mount.into(), found.place.node.into());
        Ok((found, self.give(Handle { mount, node, mark })?))
    }

    pub fn dup(&mut self, number: u64) -> Result<u64, Refusal> {
        let handle = *self.held(number)?;
        self.give(handle)
    }

    pub fn close(&mut self, number: u64) -> Result<(), Refusal> {
        self.held(number)?;
        self.0[number as usize] = None;
        Ok(())
    }

    pub fn set_mark(&mut self, image: &[u8], number: u64) -> Result<(), Refusal> {
        let handle = self.held(number)?;
        if !plain::is_directory(image, handle.node) {
            return Err(Refusal::before_walk(Errno::ENOTTY));
        }
        handle.mark = true;
        Ok(())
    }

    /// A call, the table checked by each open.
    pub fn make(&mut self, image: &[u8], step: &Step) -> Reply {
        match step {
            Step::Open(open) => {
                let asked = (open.number, open.mark);
                opened(self.open((image, plain::resolve), asked, &open.path, &open.how))
            }
            Step::Dup(number) => done(self.dup(*number)),
            Step::Close(number) => done(self.close(*number).map(|()| 0)),
            Step::SetMark(number) => done(self.set_mark(image, *number).map(|()| 0)),
        }
    }
}

/// The reply to an open.
pub fn opened(reply: Result<(Found, u64), Refusal>) -> Reply {
    let number = reply.as_ref().map_or(0, |(_, number)| *number);
    let [errno, detail, mount, node, components, links] = resolved(reply.map(|(found, _)| found));
    [errno, detail, mount, node, components, links, number]
}

/// The reply to another call: the descriptor given, 0 where none is.
pub fn done(reply: Result<u64, Refusal>) -> Reply {
    match reply {
        Ok(number) => [0, 255, 0, 0, 0, 0, number],
        Err(refusal) => opened(Err(refusal)),
    }
}

/// Writes a reply as the library does.
///
/// # Safety
///
/// The output is lent to be written.
unsafe fn write(reply: Reply, out: *mut u64, out_len: usize) -> usize {
    // SAFETY: the caller's word.
    let out = unsafe { from_raw_parts_mut(out, out_len) };
    let Some(out) = out.first_chunk_mut() else { return 0 };
    *out = reply;
    out.len()
}

/// As `ventolaire_open_accepted`.
///
/// # Safety
///
/// Each pointer goes with the length of a slice, and slots and output are lent to be
/// written.
#[allow(clippy::too_many_arguments)] // as many as the library's has
pub unsafe extern "C" fn open(
    image: *const u8,
    image_len: usize,
    slots: *mut Slots,
    number: u64,
    mark: bool,
    path: *const u8,
    path_len: usize,
    how: *const u8,
    how_len: usize,
    out: *mut u64,
    out_len: usize,
) -> usize {
    // SAFETY: the caller's word.
    let (image, slots, path, how) = unsafe {
        (
            from_raw_parts(image, image_len),
            &mut *slots,
            from_raw_parts(path, path_len),
            from_raw_parts(how, how_len),
        )
    };
    let reply = slots.open((image, plain::resolve_checked), (number, mark), path, how);
    // SAFETY: the caller's word.
    unsafe { write(opened(reply), out, out_len) }
}

/// As `ventolaire_dup`.
///
/// # Safety
///
/// As for [`open`].
pub unsafe extern "C" fn dup(
    slots: *mut Slots,
    number: u64,
    out: *mut u64,
    out_len: usize,
) -> usize {
    // SAFETY: the caller's word.
    unsafe { write(done((*slots).dup(number)), out, out_len) }
}

/// As `ventolaire_close`.
///
/// # Safety
///
/// As for [`open`].
pub unsafe extern "C" fn close(
    slots: *mut Slots,
    number: u64,
    out: *mut u64,
    out_len: usize,
) -> usize {
    // SAFETY: the caller's word.
    unsafe { write(done((*slots).close(number).map(|()| 0)), out, out_len) }
}

/// As `ventolaire_set_mark`.
///
/// # Safety
///
/// As for [`open`].
pub unsafe extern "C" fn set_mark(
    image: *const u8,
    image_len: usize,
    slots: *mut Slots,
    number: u64,
    out: *mut u64,
    out_len: usize,
) -> usize {
    // SAFETY: the caller's word.
    let image = unsafe { from_raw_parts(image, image_len) };
    // SAFETY: the same.
    unsafe { write(done((*slots).set_mark(image, number).map(|()| 0)), out, out_len) }
}
