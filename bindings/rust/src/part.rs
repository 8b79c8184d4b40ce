//! What can be reached from a handle, and whether two tables have it in common.

mod difference;
mod places;
mod walk;

pub use difference::{Difference, PartDifference};
pub use places::{Places, Reachable};

use crate::{Handle, OpenHow, Place, Refusal, Table};
use std::fmt;
use walk::{Covers, Seen, Step};

/// A handle's part of a table, by [`Table::part`]: the places that are reachable from the handle
/// by going down names, each from a place that is not covered, and entering mounts, each from the
/// place that it covers (RULES 20.2). Links and ".." make nothing reachable. The
/// [`Parts`](crate::Parts) of an image are something else.
///
/// A call that is confined to the handle, by [`BENEATH`](crate::Resolve::BENEATH), by
/// [`IN_ROOT`](crate::Resolve::IN_ROOT) or by the mark, stands on these places alone and finds
/// no other (RULES 20.3).
///
/// ```
/// use ventolaire::{bench_tree, Handle, Place, Table};
///
/// let table = Table::new(bench_tree::IMAGE)?;
/// let part = table.part(Handle::new(0, 1))?;
/// let places = part.places().map(|reachable| reachable.place.to_string());
/// assert_eq!(
///     places.collect::<Vec<_>>().join(" "),
///     "(0,1) (0,2) (0,5) (0,10) (0,6) (0,11) (0,3) (0,4) (0,7) (1,8) (1,9)"
/// );
/// // The directory above the handle is outside.
/// assert!(!part.contains(Place { mount: 0, node: 0 }));
/// # Ok::<(), Box<dyn std::error::Error>>(())
/// ```
///
/// That a walk stays in the part, and that nothing else makes a difference to it, is proved. That
/// these places are the part, and that [`Part::in_common_with`] compares them well, is not: that
/// is done by this crate, in Rust, and tested.
#[derive(Clone)]
pub struct Part<'a> {
    table: Table<'a>,
    handle: Place,
    covers: Covers,
    /// In the order in which they are reached: the handle first, any other behind the one that it
    /// is reached from.
    steps: Vec<Step<'a>>,
    seen: Seen,
}

impl<'a> Table<'a> {
    /// The part of a handle: what can be reached from it. A handle that is not good is refused as
    /// a relative path from it is, by the proved resolver: [`Handle`] says with what.
    ///
    /// ```
    /// use ventolaire::{bench_tree, Errno, Handle, Table};
    ///
    /// let table = Table::new(bench_tree::IMAGE)?;
    /// assert_eq!(table.part(Handle::new(0, 2))?.len(), 7);
    ///
    /// let errno = |node| table.part(Handle::new(0, node)).unwrap_err().errno;
    /// assert_eq!(errno(3), Errno::ENOTDIR);
    /// assert_eq!(errno(7), Errno::EBADF);
    /// # Ok::<(), Box<dyn std::error::Error>>(())
    /// ```
    pub fn part(&self, handle: impl Into<Handle>) -> Result<Part<'a>, Refusal> {
        let handle = good(self, handle.into())?;
        let covers = Covers::of(self);
        let (steps, seen) = walk::from(self, &covers, handle);
        Ok(Part { table: *self, handle, covers, steps, seen })
    }
}

/// The place of a handle that is good: "." leads to it, and meets no event on its way.
fn good(table: &Table, handle: Handle) -> Result<Place, Refusal> {
    Ok(table.resolve(handle, ".", OpenHow::new())?.place)
}

// No `is_empty`: the handle itself is always there.
#[allow(clippy::len_without_is_empty)]
impl Part<'_> {
    /// The handle's place, the first of the part.
    ///
    /// ```
    /// use ventolaire::{bench_tree, Place, Table};
    ///
    /// let table = Table::new(bench_tree::IMAGE)?;
    /// assert_eq!(table.part(table.root())?.handle(), Place { mount: 0, node: 0 });
    /// # Ok::<(), Box<dyn std::error::Error>>(())
    /// ```
    pub fn handle(&self) -> Place {
        self.handle
    }

    /// How many places there are: the handle's own at least.
    ///
    /// ```
    /// use ventolaire::{bench_tree, Handle, Table};
    ///
    /// assert_eq!(Table::new(bench_tree::IMAGE)?.part(Handle::new(1, 8))?.len(), 2);
    /// # Ok::<(), Box<dyn std::error::Error>>(())
    /// ```
    pub fn len(&self) -> usize {
        self.steps.len()
    }

    /// Whether a place is reachable.
    ///
    /// ```
    /// use ventolaire::{bench_tree, Handle, Place, Table};
    ///
    /// let part = Table::new(bench_tree::IMAGE)?.part(Handle::new(0, 1))?;
    /// assert!(part.contains(Place { mount: 1, node: 9 }));
    /// // The same node, but no mount shows it there.
    /// assert!(!part.contains(Place { mount: 0, node: 9 }));
    /// # Ok::<(), Box<dyn std::error::Error>>(())
    /// ```
    pub fn contains(&self, place: Place) -> bool {
        self.seen.has(place)
    }

    /// The places, each once: depth first, names in their order, and behind a covered place what
    /// the mount on it shows.
    ///
    /// ```
    /// use ventolaire::{bench_tree, Handle, Table};
    ///
    /// let part = Table::new(bench_tree::IMAGE)?.part(Handle::new(0, 1))?;
    /// let covered = part.places().find(|reachable| reachable.covered_by.is_some()).unwrap();
    /// assert_eq!((covered.path(), covered.covered_by), (b"pool".to_vec(), Some(1)));
    /// # Ok::<(), Box<dyn std::error::Error>>(())
    /// ```
    pub fn places(&self) -> Places<'_> {
        Places::of(self)
    }

    /// Whether another table has this part in common: whether the handle is good there too, and
    /// each place of the part is as it is here (RULES 20.4). That is, its node has the same kind; a
    /// directory that is not covered has the same names in it, of the same nodes; a symbolic link
    /// has the same body; and the same mount covers it, with the same root, or none does.
    ///
    /// If so, what lies outside makes no difference. It is proved that then
    ///
    /// - both tables give the same answer to the same call, refusals and counts included, if the
    ///   call is confined to this handle: by [`BENEATH`](crate::Resolve::BENEATH), by
    ///   [`IN_ROOT`](crate::Resolve::IN_ROOT) or by the mark (RULES 20.6);
    /// - from the same slots, an open through a descriptor that holds this handle, confined
    ///   likewise, comes to the same in both (RULES 20.7);
    /// - so does a whole script, if it starts from the same slots in both, all handles held there
    ///   are in this part, and each of its opens is made with `BENEATH`, with `IN_ROOT` or through
    ///   a number that is marked at that call (RULES 20.8).
    ///
    /// The comparison is not proved. If it finds the part not in common, some of these calls may
    /// still be answered alike.
    ///
    /// ```
    /// use ventolaire::{Handle, Manifest, Resolve, Table};
    ///
    /// let mut manifest = Manifest::parse("
    ///     dir  /lab
    ///     file /lab/run
    ///     link /lab/latest run
    ///     file /other
    /// ")?;
    /// let image = manifest.build()?;
    /// let table = Table::new(&image)?;
    /// let lab = Handle::new(0, 1);
    /// let part = table.part(lab)?;
    ///
    /// // Another file, outside.
    /// let image = manifest.file("/results").build()?;
    /// let other = Table::new(&image)?;
    /// assert_eq!(part.in_common_with(&other), Ok(()));
    /// let found = other.resolve(lab, "latest", Resolve::BENEATH);
    /// assert_eq!(found, table.resolve(lab, "latest", Resolve::BENEATH));
    ///
    /// // One inside.
    /// let image = manifest.file("/lab/tare").build()?;
    /// let difference = part.in_common_with(&Table::new(&image)?).unwrap_err();
    /// assert_eq!(
    ///     difference.to_string(),
    ///     "(0,1), the handle: it has 2 entries, and 3 in the other table"
    /// );
    /// # Ok::<(), Box<dyn std::error::Error>>(())
    /// ```
    pub fn in_common_with(&self, other: &Table) -> Result<(), PartDifference> {
        difference::first(self, other).map_or(Ok(()), Err)
    }
}

impl<'p> IntoIterator for &'p Part<'_> {
    type Item = Reachable<'p>;
    type IntoIter = Places<'p>;

    fn into_iter(self) -> Places<'p> {
        self.places()
    }
}

/// How many places it has: these may be hundreds of thousands.
impl fmt::Debug for Part<'_> {
    fn fmt(&self, f: &mut fmt::Formatter) -> fmt::Result {
        f.debug_struct("Part")
            .field("handle", &self.handle())
            .field("places", &self.len())
            .finish_non_exhaustive()
    }
}
