use super::Part;
use crate::{Node, Place};
use std::fmt;
use std::iter::FusedIterator;
use std::ops::Range;

/// A place that is reachable from a handle, and what is there: an item of [`Places`].
///
/// ```
/// use ventolaire::{bench_tree, Handle, Kind, Table};
///
/// let part = Table::new(bench_tree::IMAGE)?.part(Handle::new(0, 1))?;
/// let run = part.places().last().unwrap();
/// assert_eq!((run.place.to_string(), run.node.kind()), ("(1,9)".into(), Kind::File));
/// assert_eq!((run.path(), run.covered_by), (b"pool/run".to_vec(), None));
/// # Ok::<(), Box<dyn std::error::Error>>(())
/// ```
#[derive(Clone)]
#[non_exhaustive]
pub struct Reachable<'p> {
    /// The place.
    pub place: Place,
    /// Its node.
    pub node: Node<'p>,
    /// The mount that covers it, if one does: what the node holds is not reachable here then.
    pub covered_by: Option<u64>,
    part: &'p Part<'p>,
    /// Its number in the part.
    at: usize,
}

impl Reachable<'_> {
    /// How it is reached: the names from the handle on, with slashes between them; of the handle
    /// itself ".". Mounts that are entered leave no trace, so a covered place has the path of the
    /// root that covers it. Of several ways it is the first in the order of the names.
    ///
    /// It is made when it is asked for: in a deep part all paths together may be longer than the
    /// memory.
    ///
    /// ```
    /// use ventolaire::{bench_tree, Flags, Handle, OpenHow, Resolve, Table};
    ///
    /// let table = Table::new(bench_tree::IMAGE)?;
    /// let lab = Handle::new(0, 1);
    /// let itself = OpenHow::from(Flags::PATH | Flags::NOFOLLOW).resolve(Resolve::BENEATH);
    /// let part = table.part(lab)?;
    /// for reachable in part.places().filter(|reachable| reachable.covered_by.is_none()) {
    ///     let found = table.resolve(lab, reachable.path(), itself)?;
    ///     assert_eq!(found.place, reachable.place);
    /// }
    /// # Ok::<(), Box<dyn std::error::Error>>(())
    /// ```
    pub fn path(&self) -> Vec<u8> {
        self.part.path(self.at)
    }
}

impl fmt::Debug for Reachable<'_> {
    fn fmt(&self, f: &mut fmt::Formatter) -> fmt::Result {
        f.debug_struct("Reachable")
            .field("place", &self.place)
            .field("node", &self.node)
            .field("covered_by", &self.covered_by)
            .finish_non_exhaustive()
    }
}

impl Part<'_> {
    /// The path of a place, by its number.
    pub(super) fn path(&self, mut at: usize) -> Vec<u8> {
        let mut names = Vec::new();
        // All but the handle, number 0, are reached from one with a lower number.
        while at > 0 {
            names.extend(self.steps[at].name);
            at = self.steps[at].from;
        }
        names.reverse();
        match names.is_empty() {
            true => b".".to_vec(),
            false => names.join(&b'/'),
        }
    }

    fn reachable(&self, at: usize) -> Reachable<'_> {
        let place = self.steps[at].place;
        // Rules 4 to 6: what is named or mounted is there.
        let node = self.table.node(place.node).unwrap_or(Node::File {});
        let covered_by = self.covers.root_on(place).map(|root| root.mount);
        Reachable { place, node, covered_by, part: self, at }
    }
}

/// The places of a part, by [`Part::places`].
///
/// ```
/// use ventolaire::{bench_tree, Handle, Table};
///
/// let part = Table::new(bench_tree::IMAGE)?.part(Handle::new(0, 1))?;
/// assert_eq!(part.places().len(), 11);
/// let backwards = part.places().rev().map(|reachable| reachable.place.node);
/// assert_eq!(backwards.take(3).collect::<Vec<_>>(), [9, 8, 7]);
/// # Ok::<(), Box<dyn std::error::Error>>(())
/// ```
#[derive(Clone)]
#[must_use = "iterators do nothing unless they are asked"]
pub struct Places<'p> {
    part: &'p Part<'p>,
    left: Range<usize>,
}

impl<'p> Places<'p> {
    pub(super) fn of(part: &'p Part<'_>) -> Self {
        Places { part, left: 0..part.len() }
    }
}

impl<'p> Iterator for Places<'p> {
    type Item = Reachable<'p>;

    fn next(&mut self) -> Option<Reachable<'p>> {
        self.left.next().map(|at| self.part.reachable(at))
    }

    fn nth(&mut self, n: usize) -> Option<Reachable<'p>> {
        self.left.nth(n).map(|at| self.part.reachable(at))
    }

    fn size_hint(&self) -> (usize, Option<usize>) {
        self.left.size_hint()
    }
}

impl<'p> DoubleEndedIterator for Places<'p> {
    fn next_back(&mut self) -> Option<Reachable<'p>> {
        self.left.next_back().map(|at| self.part.reachable(at))
    }
}

impl ExactSizeIterator for Places<'_> {}

impl FusedIterator for Places<'_> {}

impl fmt::Debug for Places<'_> {
    fn fmt(&self, f: &mut fmt::Formatter) -> fmt::Result {
        f.debug_list().entries(self.clone()).finish()
    }
}
