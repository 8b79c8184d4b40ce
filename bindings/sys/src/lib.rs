//! The functions of `include/ventolaire.h` as they are, for who wants no more than C has: the
//! crate `ventolaire` is the safe one. The header says what each wants and writes.
//!
//! The build script links libventolaire.a from the folder that `VENTOLAIRE_LIB` names, else from
//! the nearest `target/staticlib` above.
//!
//! ```
//! let mut out = [u64::MAX; 2];
//! // SAFETY: no bytes are lent, and `out` has room for two numbers.
//! let written = unsafe {
//!     ventolaire_sys::ventolaire_check(std::ptr::null(), 0, out.as_mut_ptr(), out.len())
//! };
//! assert_eq!((written, out), (2, [1, 0]));
//! ```
#![no_std]
#![warn(missing_docs)]

/// The descriptors of a table.
pub const VENTOLAIRE_DESCRIPTORS: usize = 64;

/// The most bytes that an image has.
pub const VENTOLAIRE_IMAGE_MAX: usize = 65_536;

/// A table of descriptors: 64 numbers, of which 0 is a closed one.
#[repr(C)]
#[derive(Clone, Copy, Debug, PartialEq, Eq)]
#[allow(non_camel_case_types)]
pub struct ventolaire_descriptors {
    /// The slots.
    pub slots: [u64; VENTOLAIRE_DESCRIPTORS],
}

/// The type of both functions that open: image, descriptors, number, mark, path,
/// open_how and output, each pointer but that of the descriptors with its length.
pub type Open = unsafe extern "C" fn(
    *const u8,
    usize,
    *mut ventolaire_descriptors,
    u64,
    bool,
    *const u8,
    usize,
    *const u8,
    usize,
    *mut u64,
    usize,
) -> usize;

/// The type of both functions that look a name up: image, node, name and output, each
/// pointer with its length.
pub type Lookup =
    unsafe extern "C" fn(*const u8, usize, u64, *const u8, usize, *mut u64, usize) -> usize;

/// The type of the function that builds: nodes, mounts, entries, text, buffer and output,
/// each pointer with its length.
pub type Build = unsafe extern "C" fn(
    *const u8,
    usize,
    *const u8,
    usize,
    *const u8,
    usize,
    *const u8,
    usize,
    *mut u8,
    usize,
    *mut u64,
    usize,
) -> usize;

/// The type of both functions that resolve: image, mount, node, mark, path,
/// open_how and output, each pointer with its length.
pub type Resolve = unsafe extern "C" fn(
    *const u8,
    usize,
    u64,
    u64,
    bool,
    *const u8,
    usize,
    *const u8,
    usize,
    *mut u64,
    usize,
) -> usize;

extern "C" {
    /// Checks a table image: rule (0: accepted) and record.
    pub fn ventolaire_check(
        image: *const u8,
        image_len: usize,
        out: *mut u64,
        out_len: usize,
    ) -> usize;

    /// Resolves a path, the image checked first: error number (0: found), detail, mount, node,
    /// components and links.
    pub fn ventolaire_resolve(
        image: *const u8,
        image_len: usize,
        mount: u64,
        node: u64,
        mark: bool,
        path: *const u8,
        path_len: usize,
        how: *const u8,
        how_len: usize,
        out: *mut u64,
        out_len: usize,
    ) -> usize;

    /// The same without the check. Wants an image that `ventolaire_check` accepted and that has
    /// not changed since; with any other the behaviour is undefined.
    pub fn ventolaire_resolve_accepted(
        image: *const u8,
        image_len: usize,
        mount: u64,
        node: u64,
        mark: bool,
        path: *const u8,
        path_len: usize,
        how: *const u8,
        how_len: usize,
        out: *mut u64,
        out_len: usize,
    ) -> usize;

    /// Looks a name up in one directory, the image checked first: error number (0: found), entry,
    /// node and names compared.
    pub fn ventolaire_lookup(
        image: *const u8,
        image_len: usize,
        node: u64,
        name: *const u8,
        name_len: usize,
        out: *mut u64,
        out_len: usize,
    ) -> usize;

    /// The same without the check. Wants an accepted image, as `ventolaire_resolve_accepted` does.
    pub fn ventolaire_lookup_accepted(
        image: *const u8,
        image_len: usize,
        node: u64,
        name: *const u8,
        name_len: usize,
        out: *mut u64,
        out_len: usize,
    ) -> usize;

    /// Descriptors as they start, and the check of the image.
    pub fn ventolaire_start(
        image: *const u8,
        image_len: usize,
        descriptors: *mut ventolaire_descriptors,
        out: *mut u64,
        out_len: usize,
    ) -> usize;

    /// The same without the check. Wants an accepted image, as `ventolaire_resolve_accepted` does.
    pub fn ventolaire_start_accepted(
        image: *const u8,
        image_len: usize,
        descriptors: *mut ventolaire_descriptors,
    );

    /// Opens a path from a descriptor, the image checked: the numbers of an answer, then the
    /// descriptor given.
    pub fn ventolaire_open(
        image: *const u8,
        image_len: usize,
        descriptors: *mut ventolaire_descriptors,
        number: u64,
        mark: bool,
        path: *const u8,
        path_len: usize,
        how: *const u8,
        how_len: usize,
        out: *mut u64,
        out_len: usize,
    ) -> usize;

    /// The same without the check. Wants an accepted image, as `ventolaire_resolve_accepted` does.
    pub fn ventolaire_open_accepted(
        image: *const u8,
        image_len: usize,
        descriptors: *mut ventolaire_descriptors,
        number: u64,
        mark: bool,
        path: *const u8,
        path_len: usize,
        how: *const u8,
        how_len: usize,
        out: *mut u64,
        out_len: usize,
    ) -> usize;

    /// Duplicates a descriptor, its mark included.
    pub fn ventolaire_dup(
        descriptors: *mut ventolaire_descriptors,
        number: u64,
        out: *mut u64,
        out_len: usize,
    ) -> usize;

    /// Closes a descriptor.
    pub fn ventolaire_close(
        descriptors: *mut ventolaire_descriptors,
        number: u64,
        out: *mut u64,
        out_len: usize,
    ) -> usize;

    /// Marks a descriptor.
    pub fn ventolaire_set_mark(
        image: *const u8,
        image_len: usize,
        descriptors: *mut ventolaire_descriptors,
        number: u64,
        out: *mut u64,
        out_len: usize,
    ) -> usize;

    /// Writes the image of a tree's parts: error number (0: written), rule, record and bytes.
    ///
    /// ```
    /// use std::ptr::null;
    /// use ventolaire_sys::{ventolaire_build, VENTOLAIRE_IMAGE_MAX};
    ///
    /// let (nodes, mounts) = ([1, 0, 0, 0, 0, 0, 0, 0, 0, 0, 0, 0], [0; 8]);
    /// let mut buffer = [0xff; VENTOLAIRE_IMAGE_MAX];
    /// let mut out = [u64::MAX; 4];
    /// // SAFETY: each pointer goes with its length, and no entries and no text are lent.
    /// let written = unsafe {
    ///     let (to, answer) = (buffer.as_mut_ptr(), out.as_mut_ptr());
    ///     let (n, m, none) = (nodes.as_ptr(), mounts.as_ptr(), null());
    ///     ventolaire_build(n, 12, m, 8, none, 0, none, 0, to, buffer.len(), answer, out.len())
    /// };
    /// assert_eq!((written, out), (4, [0, 0, 0, 40]));
    /// assert!(buffer.starts_with(b"TOC1\x01\0\x01\0") && buffer[40] == 0xff);
    /// ```
    pub fn ventolaire_build(
        nodes: *const u8,
        nodes_len: usize,
        mounts: *const u8,
        mounts_len: usize,
        entries: *const u8,
        entries_len: usize,
        text: *const u8,
        text_len: usize,
        buffer: *mut u8,
        buffer_len: usize,
        out: *mut u64,
        out_len: usize,
    ) -> usize;

    /// The numbers of all refusals.
    pub fn ventolaire_errnos(out: *mut u64, out_len: usize) -> usize;
}
