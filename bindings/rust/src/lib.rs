#![doc = include_str!("../README.md")]
#![cfg_attr(not(any(feature = "std", test)), no_std)]
#![deny(unsafe_code)]
#![warn(missing_docs, rustdoc::broken_intra_doc_links)]

mod answer;
pub mod bench_tree;
mod bits;
mod descriptors;
mod errno;
#[allow(unsafe_code)]
mod ffi;
mod how;
mod lookup;
#[cfg(feature = "std")]
mod manifest;
#[cfg(feature = "std")]
mod part;
mod parts;
mod path;
mod place;
mod records;
mod table;
#[cfg(test)]
mod tests;
pub mod text;

pub use answer::{Broken, Found, Opened, Refusal, UnknownBit};
pub use bits::ParseBitsError;
pub use descriptors::Descriptors;
pub use errno::Errno;
pub use how::{Flags, OpenHow, Resolve};
pub use lookup::{FoundName, NameRefusal};
#[cfg(feature = "std")]
pub use manifest::{AsSeen, Manifest, ManifestError, Position, Problem};
#[cfg(feature = "std")]
pub use part::{Difference, Part, PartDifference, Places, Reachable};
pub use parts::{BuildError, Parts};
pub use path::AsPath;
pub use place::{Handle, Place};
pub use records::{Cause, Entries, Entry, Kind, Mount, Mounts, Node, Nodes, Record};
pub use table::Table;

/// Checks a table image. [`Table::new`] checks it too, and keeps the verdict.
///
/// ```
/// let broken = ventolaire::check(b"not a table, though it is long enough").unwrap_err();
/// assert_eq!((broken.rule, broken.record), (2, 0));
/// ```
pub fn check(image: &[u8]) -> Result<(), Broken> {
    match ffi::check(image) {
        [0, _] => Ok(()),
        [rule, record] => Err(Broken { rule, record }),
    }
}

/// Resolves a path, the table checked first. The check reads the whole table: for
/// more than one path, make a [`Table`] and use [`Table::resolve`]. When the handle is checked,
/// [`Handle`] says.
///
/// ```
/// use ventolaire::{bench_tree, resolve, Errno, Handle, OpenHow, Resolve};
///
/// let lab = Handle::new(0, 1);
/// let found = resolve(bench_tree::IMAGE, lab, "cal/abs", OpenHow::new())?;
/// assert_eq!(found.to_string(), "(0,3); 5 components, 1 link");
///
/// let refusal = resolve(bench_tree::IMAGE, lab, "cal/abs", Resolve::BENEATH).unwrap_err();
/// assert_eq!(refusal.errno, Errno::EXDEV);
/// # Ok::<(), ventolaire::Refusal>(())
/// ```
pub fn resolve(
    image: &[u8],
    handle: impl Into<Handle>,
    path: impl AsPath,
    how: impl Into<OpenHow>,
) -> Result<Found, Refusal> {
    resolve_raw(image, handle, path, how.into().to_bytes())
}

/// As [`resolve`], with the bytes of an open_how as they come: of any length,
/// and not always valid.
///
/// ```
/// use ventolaire::{bench_tree, resolve_raw, Errno, Handle, UnknownBit};
///
/// let mut how = [0; 24];
/// how[16] = 1 << 5;
/// let refusal = resolve_raw(bench_tree::IMAGE, Handle::new(0, 1), "cal", how).unwrap_err();
/// assert_eq!(refusal.errno, Errno::EINVAL);
/// assert_eq!(refusal.unknown_bit(), Some(UnknownBit::Resolve(5)));
/// ```
pub fn resolve_raw(
    image: &[u8],
    handle: impl Into<Handle>,
    path: impl AsPath,
    how: impl AsRef<[u8]>,
) -> Result<Found, Refusal> {
    answer::of(ffi::resolve(image, handle.into(), path.path_bytes(), how.as_ref()))
}

/// Looks a name up in one directory, the table checked first. The check reads the whole
/// table: for more than one name, make a [`Table`] and use [`Table::lookup`], which says
/// what a lookup is.
///
/// ```
/// use ventolaire::{bench_tree, lookup, Errno};
///
/// let found = lookup(bench_tree::IMAGE, 2, "tare")?;
/// assert_eq!(found.to_string(), "entry 7, node 3; 2 names compared");
/// assert_eq!(lookup(b"not a table", 2, "tare").unwrap_err().errno, Errno::EUCLEAN);
/// # Ok::<(), ventolaire::NameRefusal>(())
/// ```
pub fn lookup(image: &[u8], node: u64, name: impl AsPath) -> Result<FoundName, NameRefusal> {
    lookup::of(ffi::lookup(image, node, name.path_bytes()))
}
