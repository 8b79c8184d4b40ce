//! A walk as it is measured: a C function that is lent an accepted image and
//! writes six numbers.
//!
//! The proved library is called across that boundary, so the plain side is too:
//! by the same code, through a pointer to a function of the same type, which
//! does what the library's does besides the walk. What the crossing costs is
//! thus in both figures, and the compiler sees through neither call.

use crate::plain::{self, Handle};
use crate::side::resolved;
use crate::tables::Numbers;
use std::hint::black_box;
use std::slice::{from_raw_parts, from_raw_parts_mut};
use ventolaire_sys::Resolve;

/// What stands in an output before the call. It is part of no answer, so a call
/// that writes nothing gives a wrong one.
pub const UNWRITTEN: u64 = 0xA5A5_A5A5_A5A5_A5A5;

/// An image that a side's check accepted, and the side's function for walks.
pub struct Accepted<'a> {
    image: &'a [u8],
    resolve: Resolve,
}

impl<'a> Accepted<'a> {
    /// # Safety
    ///
    /// With this image `resolve` reads what it is lent alone and writes to the
    /// output alone.
    pub unsafe fn new(image: &'a [u8], resolve: Resolve) -> Self {
        Accepted { image, resolve: black_box(resolve) }
    }

    /// The image for walks by the plain side, which accepts it.
    pub fn plain(image: &'a [u8]) -> Self {
        assert_eq!(plain::check(black_box(image)), Ok(()), "walks are over accepted tables");
        // SAFETY: but for its pointers, `plain_resolve` is safe Rust.
        unsafe { Accepted::new(image, plain_resolve) }
    }

    pub fn resolve(&self, handle: Handle, path: &[u8], how: &[u8]) -> Numbers {
        let mut out = [UNWRITTEN; 6];
        // SAFETY: each pointer goes with the length of a slice that outlives the
        // call; for the image, see `new`.
        unsafe {
            (self.resolve)(
                self.image.as_ptr(),
                self.image.len(),
                handle.mount,
                handle.node,
                handle.mark,
                path.as_ptr(),
                path.len(),
                how.as_ptr(),
                how.len(),
                out.as_mut_ptr(),
                out.len(),
            )
        };
        out
    }
}

/// The plain side's walk, with the signature and the writing of
/// `ventolaire_resolve_accepted`.
///
/// # Safety
///
/// Each pointer goes with the length of a slice, the output's lent to be written.
#[allow(clippy::too_many_arguments)] // as many as the library's has
pub unsafe extern "C" fn plain_resolve(
    image: *const u8,
    image_len: usize,
    mount: u64,
    node: u64,
    mark: bool,
    path: *const u8,
    path_len: usize,
    how: *const u8,
    how_len: usize,
    out: *mut u64,
    out_len: usize,
) -> usize {
    // SAFETY: the caller's word.
    let (image, path, how, out) = unsafe {
        (
            from_raw_parts(image, image_len),
            from_raw_parts(path, path_len),
            from_raw_parts(how, how_len),
            from_raw_parts_mut(out, out_len),
        )
    };
    let Some(out) = out.first_chunk_mut() else { return 0 };
    let handle = Handle { mount, node, mark };
    *out = resolved(plain::resolve_checked(image, handle, path, how));
    out.len()
}
