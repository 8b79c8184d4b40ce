use crate::{Broken, Errno};
use core::error::Error;
use core::fmt;

/// The answer of the four numbers that the library writes to a lookup.
pub(crate) fn of(numbers: [u64; 4]) -> Result<FoundName, NameRefusal> {
    let [errno, entry, node, compared] = numbers;
    match errno {
        0 => Ok(FoundName { entry, node, compared }),
        _ => Err(NameRefusal { errno: Errno::from_number(errno), compared }),
    }
}

/// What a name in a directory leads to, by [`Table::lookup`](crate::Table::lookup).
///
/// ```
/// use ventolaire::{bench_tree, Table};
///
/// let table = Table::new(bench_tree::IMAGE)?;
/// let found = table.lookup(2, "tare")?;
/// assert_eq!((found.entry, found.node, found.compared), (7, 3, 2));
/// assert_eq!(found.to_string(), "entry 7, node 3; 2 names compared");
/// # Ok::<(), Box<dyn std::error::Error>>(())
/// ```
#[derive(Clone, Copy, Debug, PartialEq, Eq, Hash)]
#[non_exhaustive]
pub struct FoundName {
    /// The number of its entry, in the order of [`Table::entries`](crate::Table::entries).
    pub entry: u64,
    /// The number of the node that is named: of a link the link itself, of a covered directory
    /// that directory.
    pub node: u64,
    /// Names compared, at most 13.
    pub compared: u64,
}

impl fmt::Display for FoundName {
    fn fmt(&self, f: &mut fmt::Formatter) -> fmt::Result {
        write!(f, "entry {}, node {}; ", self.entry, self.node)?;
        write_compared(f, self.compared)
    }
}

/// Why a name is not found in a directory, and how many names were compared with it.
///
/// As a `std::io::Error` it is the one of its errno's number, as a
/// [`Refusal`](crate::Refusal) is.
///
/// ```
/// use ventolaire::{bench_tree, Errno, Table};
///
/// let table = Table::new(bench_tree::IMAGE)?;
/// let refusal = table.lookup(2, "nope").unwrap_err();
/// assert_eq!((refusal.errno, refusal.compared), (Errno::ENOENT, 3));
/// assert_eq!(refusal.to_string(), "ENOENT (2); 3 names compared");
/// # #[cfg(feature = "std")]
/// assert_eq!(std::io::Error::from(refusal).kind(), std::io::ErrorKind::NotFound);
/// # Ok::<(), ventolaire::Broken>(())
/// ```
#[derive(Clone, Copy, Debug, PartialEq, Eq, Hash)]
#[non_exhaustive]
pub struct NameRefusal {
    /// The reason.
    pub errno: Errno,
    /// Names compared, at most 13; 0 unless the errno is `ENOENT`.
    pub compared: u64,
}

impl fmt::Display for NameRefusal {
    fn fmt(&self, f: &mut fmt::Formatter) -> fmt::Result {
        write!(f, "{}; ", self.errno)?;
        write_compared(f, self.compared)
    }
}

impl Error for NameRefusal {}

/// The refusal of a lookup that compares no name.
///
/// ```
/// use ventolaire::{Errno, NameRefusal};
///
/// let refusal = NameRefusal::from(Errno::ENOTDIR);
/// assert_eq!(refusal.to_string(), "ENOTDIR (20); 0 names compared");
/// ```
impl From<Errno> for NameRefusal {
    fn from(errno: Errno) -> Self {
        NameRefusal { errno, compared: 0 }
    }
}

/// The refusal of every lookup in such a table.
impl From<Broken> for NameRefusal {
    fn from(_: Broken) -> Self {
        Errno::EUCLEAN.into()
    }
}

#[cfg(feature = "std")]
impl From<NameRefusal> for std::io::Error {
    fn from(refusal: NameRefusal) -> Self {
        refusal.errno.into()
    }
}

fn write_compared(f: &mut fmt::Formatter, compared: u64) -> fmt::Result {
    let s = if compared == 1 { "" } else { "s" };
    write!(f, "{compared} name{s} compared")
}
