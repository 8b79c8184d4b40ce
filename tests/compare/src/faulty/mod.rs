//! The resolver once more, in another shape and with room for faults.
//!
//! It reads every field from the image's bytes when it needs it, keeps
//! the unread text as one run of bytes, packs a descriptor in one number, finds a
//! name by the halving that counts, and builds an image by copying all records and
//! then setting the offsets in it. With no fault planted it must agree with
//! `resolver`, `descriptors`, `halving` and `builder`, which checks both; with one
//! of `faults` planted the comparison must find it, which checks the comparison and
//! its inputs.

mod build;
mod descriptors;
mod handle;
mod how;
mod lookup;
mod manifest;
mod table;
mod walk;

pub use build::build;
pub use descriptors::{act, start};
pub use lookup::lookup;
pub use manifest::rewritten;

use crate::faults::Fault;
use crate::resolver::{BENEATH, EINVAL, ENAMETOOLONG, ENOENT, EUCLEAN, EXDEV};
use how::{both_scopes, fields};
use table::Raw;
use walk::Walk;

/// The table check in two numbers.
pub fn check(fault: Option<Fault>, image: &[u8]) -> [u64; 2] {
    Raw::read(fault, image).map_or_else(|broken| broken, |_| [0, 0])
}

/// The whole answer in six numbers.
pub fn resolve(
    fault: Option<Fault>,
    image: &[u8],
    handle: (u64, u64),
    mark: bool,
    path: &mut [u8],
    how: &[u8],
) -> [u64; 6] {
    let answer = answer(fault, image, handle, mark, path, how);
    if fault == Some(Fault::TouchedPath) {
        if let Some(last) = path.last_mut() {
            *last ^= 1;
        }
    }
    answer
}

fn answer(
    fault: Option<Fault>,
    image: &[u8],
    handle: (u64, u64),
    mark: bool,
    path: &[u8],
    how: &[u8],
) -> [u64; 6] {
    let Ok(raw) = Raw::read(fault, image) else {
        return [EUCLEAN, 255, 0, 0, 0, 0];
    };
    let (flags, resolve) = match fields(fault, how) {
        Ok(fields) => fields,
        Err((errno, detail)) => return [errno, detail, 0, 0, 0, 0],
    };
    let cut = if raw.has(Fault::HandleCut) { 0xFFFF_FFFF } else { u64::MAX };
    let handle = (handle.0 & cut, handle.1 & cut);
    match bad_call(&raw, handle, mark, path, resolve) {
        Some(errno) => [errno, 255, 0, 0, 0, 0],
        None => Walk::new(raw, handle, mark, path, (flags, resolve)).answer(),
    }
}

/// What is wrong with path or handle.
fn bad_call(raw: &Raw, handle: (u64, u64), mark: bool, path: &[u8], resolve: u64) -> Option<u64> {
    let longest = 4095 - usize::from(raw.has(Fault::PathBound));
    let beneath = !mark && resolve & BENEATH != 0 && path.starts_with(b"/");
    if raw.has(Fault::BeneathBeforePath) && beneath {
        Some(EXDEV)
    } else if raw.has(Fault::ZeroByteFirst) && path.contains(&0) {
        Some(EINVAL)
    } else if path.len() > longest {
        Some(ENAMETOOLONG)
    } else if path.is_empty() {
        Some(ENOENT)
    } else if path.contains(&0) || both_scopes(resolve) {
        Some(EINVAL)
    } else {
        handle::refusal(raw, handle, mark, path, resolve)
    }
}
