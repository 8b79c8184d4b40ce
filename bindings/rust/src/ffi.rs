//! The library's C functions called, and all of this crate that is unsafe.
//!
//! Those that want an accepted image are given a `Table`: the check makes one, or the builder,
//! whose images the check accepts, and the image that it borrows has not changed since.

use crate::{Handle, Parts, Table};
use ventolaire_sys::{
    ventolaire_build, ventolaire_check, ventolaire_close, ventolaire_dup, ventolaire_lookup,
    ventolaire_lookup_accepted, ventolaire_open_accepted, ventolaire_resolve,
    ventolaire_resolve_accepted, ventolaire_set_mark, ventolaire_start_accepted, Lookup, Open,
    Resolve, VENTOLAIRE_DESCRIPTORS,
};

/// The descriptors of a script.
pub use ventolaire_sys::ventolaire_descriptors as Slots;

/// The slot of a descriptor that is closed.
pub const CLOSED: u64 = 0;

/// What stands in an output before the call. Neither a rule nor an errno, so
/// numbers that a library failed to write read as a refusal.
const UNWRITTEN: u64 = u64::MAX;

/// Rule and record.
pub fn check(image: &[u8]) -> [u64; 2] {
    let mut out = [UNWRITTEN; 2];
    // SAFETY: the pointers and lengths are those of slices that live through
    // the call. The library reads `image` and writes to `out` alone, and keeps
    // neither.
    unsafe { ventolaire_check(image.as_ptr(), image.len(), out.as_mut_ptr(), out.len()) };
    out
}

/// Errno, detail, mount, node, components and links.
pub fn resolve(image: &[u8], handle: Handle, path: &[u8], how: &[u8]) -> [u64; 6] {
    // SAFETY: this function takes any bytes for an image.
    unsafe { resolve_by(ventolaire_resolve, image, handle, path, how) }
}

/// As [`resolve`], without the table check.
pub fn resolve_accepted(table: &Table, handle: Handle, path: &[u8], how: &[u8]) -> [u64; 6] {
    // SAFETY: the image is a table's, so it was accepted.
    unsafe { resolve_by(ventolaire_resolve_accepted, table.image(), handle, path, how) }
}

/// # Safety
///
/// The image is one that the function takes.
#[inline]
unsafe fn resolve_by(
    function: Resolve,
    image: &[u8],
    handle: Handle,
    path: &[u8],
    how: &[u8],
) -> [u64; 6] {
    let mut out = [UNWRITTEN; 6];
    // SAFETY: as in `check`; `path` and `how` are read as `image` is.
    unsafe {
        function(
            image.as_ptr(),
            image.len(),
            handle.mount,
            handle.node,
            handle.mark,
            path.as_ptr(),
            path.len(),
            how.as_ptr(),
            how.len(),
            out.as_mut_ptr(),
            out.len(),
        )
    };
    out
}

/// Errno, entry, node and names compared.
pub fn lookup(image: &[u8], node: u64, name: &[u8]) -> [u64; 4] {
    // SAFETY: this function takes any bytes for an image.
    unsafe { lookup_by(ventolaire_lookup, image, node, name) }
}

/// As [`lookup`], without the table check.
pub fn lookup_accepted(table: &Table, node: u64, name: &[u8]) -> [u64; 4] {
    // SAFETY: the image is a table's, so it was accepted.
    unsafe { lookup_by(ventolaire_lookup_accepted, table.image(), node, name) }
}

/// # Safety
///
/// The image is one that the function takes.
#[inline]
unsafe fn lookup_by(function: Lookup, image: &[u8], node: u64, name: &[u8]) -> [u64; 4] {
    let mut out = [UNWRITTEN; 4];
    // SAFETY: as in `check`; `name` is read as `image` is.
    unsafe {
        function(
            image.as_ptr(),
            image.len(),
            node,
            name.as_ptr(),
            name.len(),
            out.as_mut_ptr(),
            out.len(),
        )
    };
    out
}

/// Descriptors as a script starts with them.
pub fn start_accepted(table: &Table) -> Slots {
    let mut slots = Slots { slots: [CLOSED; VENTOLAIRE_DESCRIPTORS] };
    let image = table.image();
    // SAFETY: as in `check`, and the image is a table's; `slots` is written to.
    unsafe { ventolaire_start_accepted(image.as_ptr(), image.len(), &mut slots) };
    slots
}

/// The numbers of [`resolve`], and the descriptor given.
pub fn open_accepted(
    table: &Table,
    slots: &mut Slots,
    number: u64,
    mark: bool,
    path: &[u8],
    how: &[u8],
) -> [u64; 7] {
    // SAFETY: the image is a table's, so it was accepted.
    unsafe { open_by(ventolaire_open_accepted, table.image(), slots, (number, mark), path, how) }
}

/// # Safety
///
/// The image is one that the function takes.
unsafe fn open_by(
    function: Open,
    image: &[u8],
    slots: &mut Slots,
    (number, mark): (u64, bool),
    path: &[u8],
    how: &[u8],
) -> [u64; 7] {
    let mut out = [UNWRITTEN; 7];
    // SAFETY: as in `resolve_by`. `slots` is written to besides, and borrowed by nobody else.
    unsafe {
        function(
            image.as_ptr(),
            image.len(),
            slots,
            number,
            mark,
            path.as_ptr(),
            path.len(),
            how.as_ptr(),
            how.len(),
            out.as_mut_ptr(),
            out.len(),
        )
    };
    out
}

/// The numbers of [`open_accepted`].
pub fn duplicate(slots: &mut Slots, number: u64) -> [u64; 7] {
    let mut out = [UNWRITTEN; 7];
    // SAFETY: `slots` and `out` are borrowed by this call alone, and the length is that of `out`.
    unsafe { ventolaire_dup(slots, number, out.as_mut_ptr(), out.len()) };
    out
}

/// The numbers of [`open_accepted`].
pub fn close(slots: &mut Slots, number: u64) -> [u64; 7] {
    let mut out = [UNWRITTEN; 7];
    // SAFETY: as in `duplicate`.
    unsafe { ventolaire_close(slots, number, out.as_mut_ptr(), out.len()) };
    out
}

/// The numbers of [`open_accepted`].
pub fn set_mark(table: &Table, slots: &mut Slots, number: u64) -> [u64; 7] {
    let mut out = [UNWRITTEN; 7];
    let image = table.image();
    // SAFETY: as in `duplicate`; the image is read, as in `check`.
    unsafe {
        ventolaire_set_mark(image.as_ptr(), image.len(), slots, number, out.as_mut_ptr(), out.len())
    };
    out
}

/// An image that [`build`] has written.
pub struct Built<'a>(&'a [u8]);

impl<'a> Built<'a> {
    pub fn bytes(&self) -> &'a [u8] {
        self.0
    }
}

/// The image, or errno, rule, record and bytes.
pub fn build<'a>(parts: &Parts, buffer: &'a mut [u8]) -> Result<Built<'a>, [u64; 4]> {
    let mut out = [UNWRITTEN; 4];
    // SAFETY: the pointers and lengths are those of slices that this call alone borrows.
    unsafe { build_to(parts, (buffer.as_mut_ptr(), buffer.len()), (out.as_mut_ptr(), out.len())) };
    let len = usize::try_from(out[3]).ok().filter(|_| out[0] == 0);
    len.and_then(|len| buffer.get(..len)).map(Built).ok_or(out)
}

/// # Safety
///
/// The buffer and the output may be written to for their lengths.
unsafe fn build_to(parts: &Parts, buffer: (*mut u8, usize), out: (*mut u64, usize)) -> usize {
    let Parts { nodes, mounts, entries, text } = parts;
    // SAFETY: as in `check`; the parts are read as `image` is. For the rest, the caller's word.
    unsafe {
        ventolaire_build(
            nodes.as_ptr(),
            nodes.len(),
            mounts.as_ptr(),
            mounts.len(),
            entries.as_ptr(),
            entries.len(),
            text.as_ptr(),
            text.len(),
            buffer.0,
            buffer.1,
            out.0,
            out.1,
        )
    }
}

#[cfg(test)]
mod tests;
