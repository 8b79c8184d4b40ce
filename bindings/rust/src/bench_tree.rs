//! The bench tree: a small table, and calls on it whose answers were worked out
//! by hand. For trying the library, and for its tests.
//!
//! ```text
//! mount 0                          mount 1, on (0,7)
//! 0 /                              8 /
//! └── 1 lab                        └── 9 run
//!     ├── 2 cal
//!     │   ├── 3 tare
//!     │   ├── 4 up -> ../..
//!     │   ├── 5 abs -> /lab/cal/tare
//!     │   ├── 6 loop -> loop
//!     │   ├── 10 fd, a magic link to (0,3)
//!     │   └── 11 t -> tare/
//!     └── 7 pool
//! ```
//!
//! ```
//! use ventolaire::bench_tree::{IMAGE, TABLE};
//! use ventolaire::Table;
//!
//! let table = Table::new(IMAGE)?;
//! for row in TABLE {
//!     assert_eq!(table.resolve(row.handle, row.path, row.how), row.answer);
//! }
//! # Ok::<(), ventolaire::Broken>(())
//! ```

use crate::{Errno, Flags, Found, Handle, OpenHow, Place, Refusal, Resolve};

/// The table image.
///
/// ```
/// assert_eq!(ventolaire::check(ventolaire::bench_tree::IMAGE), Ok(()));
/// ```
pub const IMAGE: &[u8] = include_bytes!("../../../examples/bench_tree.toc");

/// A call on the bench tree and its answer.
///
/// ```
/// let first = &ventolaire::bench_tree::TABLE[0];
/// assert_eq!((first.name, first.path), ("P1", "cal/tare"));
/// ```
#[derive(Clone, Copy, Debug)]
#[non_exhaustive]
pub struct Row {
    /// As RULES 13.4 names it, or "-".
    pub name: &'static str,
    /// Where the path starts.
    pub handle: Handle,
    /// The path.
    pub path: &'static str,
    /// How to resolve it.
    pub how: OpenHow,
    /// The answer.
    pub answer: Result<Found, Refusal>,
}

/// The calls, all from the handle `lab`.
///
/// ```
/// assert_eq!(ventolaire::bench_tree::TABLE.len(), 19);
/// ```
#[rustfmt::skip]
pub const TABLE: &[Row] = &[
    row("P1", "cal/tare", found(0, 3, 2, 0)),
    row("P2", "pool/run", found(1, 9, 2, 0)),
    row("P3", "pool/run", refused(Errno::EXDEV, 1, 0)).with(Resolve::NO_XDEV),
    row("P4", "pool/../cal", found(0, 2, 3, 0)).with(Resolve::BENEATH),
    row("P5", "..", found(0, 0, 1, 0)),
    row("P6a", "..", refused(Errno::EXDEV, 1, 0)).with(Resolve::BENEATH),
    row("P6b", "..", found(0, 1, 1, 0)).with(Resolve::IN_ROOT),
    row("P6c", "..", refused(Errno::ENOENT, 1, 0)).marked(),
    row("P7", "cal/abs", found(0, 3, 5, 1)),
    row("P8", "cal/abs", refused(Errno::EXDEV, 2, 0)).with(Resolve::BENEATH),
    row("P9", "cal/abs", refused(Errno::ENOENT, 3, 1)).with(Resolve::IN_ROOT),
    row("P10", "cal/loop", refused(Errno::ELOOP, 42, 40)),
    row("P11", "cal/up", refused(Errno::EXDEV, 4, 1)).with(Resolve::BENEATH),
    row("P12", "cal/fd", found(0, 10, 2, 0)).with(Resolve::NO_MAGICLINKS).flagged(UNFOLLOWED),
    row("-", "cal/fd", found(0, 3, 2, 1)).with(Resolve::NO_XDEV),
    row("-", "cal/t", refused(Errno::ENOTDIR, 3, 1)),
    row("-", "cal/tare/x", refused(Errno::ENOTDIR, 2, 0)),
    row("-", "cal/abs", refused(Errno::ELOOP, 2, 0)).flagged(Flags::NOFOLLOW),
    row("-", "/", found(0, 0, 0, 0)),
];

const UNFOLLOWED: Flags = Flags::PATH.union(Flags::NOFOLLOW);

const fn row(name: &'static str, path: &'static str, answer: Result<Found, Refusal>) -> Row {
    Row { name, handle: Handle::new(0, 1), path, how: OpenHow::new(), answer }
}

impl Row {
    const fn marked(self) -> Self {
        Row { handle: self.handle.marked(), ..self }
    }

    const fn flagged(self, flags: Flags) -> Self {
        Row { how: self.how.flags(flags), ..self }
    }

    const fn with(self, resolve: Resolve) -> Self {
        Row { how: self.how.resolve(resolve), ..self }
    }
}

const fn found(mount: u64, node: u64, components: u64, links: u64) -> Result<Found, Refusal> {
    Ok(Found { place: Place { mount, node }, components, links })
}

const fn refused(errno: Errno, components: u64, links: u64) -> Result<Found, Refusal> {
    Err(Refusal { errno, detail: Refusal::NO_DETAIL, components, links })
}
