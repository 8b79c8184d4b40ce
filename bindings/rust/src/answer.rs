use crate::{Errno, Place};
use core::error::Error;
use core::fmt;

/// The answer of the six numbers that the library writes.
pub(crate) fn of(numbers: [u64; 6]) -> Result<Found, Refusal> {
    let [errno, detail, mount, node, components, links] = numbers;
    match errno {
        0 => Ok(Found { place: Place { mount, node }, components, links }),
        _ => Err(Refusal { errno: Errno::from_number(errno), detail, components, links }),
    }
}

/// The reply of the seven numbers that the library writes to a call on descriptors. What a call
/// does not find or give is 0 in it.
pub(crate) fn reply(numbers: [u64; 7]) -> Result<Opened, Refusal> {
    let [errno, detail, mount, node, components, links, descriptor] = numbers;
    let found = of([errno, detail, mount, node, components, links])?;
    Ok(Opened { descriptor, found })
}

/// What a path leads to.
///
/// ```
/// use ventolaire::{bench_tree, OpenHow, Table};
///
/// let table = Table::new(bench_tree::IMAGE)?;
/// let found = table.resolve(table.root(), "lab/cal/abs", OpenHow::new())?;
/// assert_eq!((found.place.node, found.components, found.links), (3, 6, 1));
/// assert_eq!(found.to_string(), "(0,3); 6 components, 1 link");
/// # Ok::<(), Box<dyn std::error::Error>>(())
/// ```
#[derive(Clone, Copy, Debug, PartialEq, Eq, Hash)]
#[non_exhaustive]
pub struct Found {
    /// The place.
    pub place: Place,
    /// Components taken, at most 83,968.
    pub components: u64,
    /// Links followed, at most 40.
    pub links: u64,
}

impl fmt::Display for Found {
    fn fmt(&self, f: &mut fmt::Formatter) -> fmt::Result {
        write!(f, "{}; ", self.place)?;
        write_counts(f, self.components, self.links)
    }
}

/// What [`Descriptors::open`](crate::Descriptors::open) gives: the descriptor, and what its path
/// led to.
///
/// ```
/// use ventolaire::{bench_tree, OpenHow, Table};
///
/// let mut descriptors = Table::new(bench_tree::IMAGE)?.descriptors();
/// let opened = descriptors.open(0, "lab/cal", OpenHow::new())?;
/// assert_eq!((opened.descriptor, opened.found.place.node), (1, 2));
/// assert_eq!(opened.to_string(), "1 = (0,2); 2 components, 0 links");
/// # Ok::<(), Box<dyn std::error::Error>>(())
/// ```
#[derive(Clone, Copy, Debug, PartialEq, Eq, Hash)]
#[non_exhaustive]
pub struct Opened {
    /// The number given: the lowest that was free.
    pub descriptor: u64,
    /// The place that it is open on, and the way there.
    pub found: Found,
}

impl fmt::Display for Opened {
    fn fmt(&self, f: &mut fmt::Formatter) -> fmt::Result {
        write!(f, "{} = {}", self.descriptor, self.found)
    }
}

/// Why a path leads nowhere, and how far it led; or why another call is refused.
///
/// As a `std::io::Error` it is the one of its errno's number, Linux's whatever the
/// host is; what else it says is lost.
///
/// ```
/// # #[cfg(feature = "std")] {
/// use std::io;
/// use ventolaire::{bench_tree, Place, Resolve, Table};
///
/// fn open(table: &Table, path: &str) -> io::Result<Place> {
///     Ok(table.resolve(table.root(), path, Resolve::NO_XDEV)?.place)
/// }
///
/// let table = Table::new(bench_tree::IMAGE)?;
/// assert_eq!(open(&table, "lab/pool/run").unwrap_err().raw_os_error(), Some(18));
/// # }
/// # Ok::<(), ventolaire::Broken>(())
/// ```
#[derive(Clone, Copy, Debug, PartialEq, Eq, Hash)]
#[non_exhaustive]
pub struct Refusal {
    /// The reason.
    pub errno: Errno,
    /// The number of an unknown bit, as [`Refusal::unknown_bit`] reads it, or
    /// [`Refusal::NO_DETAIL`].
    pub detail: u64,
    /// Components taken before the refusal, the one refused included.
    pub components: u64,
    /// Links followed before the refusal.
    pub links: u64,
}

impl Refusal {
    /// The detail of every refusal but that of an unknown bit.
    ///
    /// ```
    /// use ventolaire::{bench_tree, resolve, Handle, OpenHow, Refusal};
    ///
    /// let refusal = resolve(bench_tree::IMAGE, Handle::new(0, 1), "", OpenHow::new());
    /// assert_eq!(refusal.unwrap_err().detail, Refusal::NO_DETAIL);
    /// ```
    pub const NO_DETAIL: u64 = 255;

    /// The unknown bit that was refused, if that was the reason.
    ///
    /// ```
    /// use ventolaire::{bench_tree, resolve, Flags, Handle, UnknownBit};
    ///
    /// let flags = Flags::PATH | Flags::from_bits_retain(1 << 18);
    /// let refusal = resolve(bench_tree::IMAGE, Handle::new(0, 1), "cal", flags).unwrap_err();
    /// assert_eq!(refusal.unknown_bit(), Some(UnknownBit::Flags(18)));
    /// ```
    pub const fn unknown_bit(&self) -> Option<UnknownBit> {
        match self.detail {
            bit @ 0..=63 => Some(UnknownBit::Flags(bit as u8)),
            bit @ 64..=127 => Some(UnknownBit::Resolve((bit - 64) as u8)),
            _ => None,
        }
    }
}

impl fmt::Display for Refusal {
    fn fmt(&self, f: &mut fmt::Formatter) -> fmt::Result {
        write!(f, "{}", self.errno)?;
        if let Some(bit) = self.unknown_bit() {
            write!(f, ", {bit}")?;
        }
        f.write_str("; ")?;
        write_counts(f, self.components, self.links)
    }
}

impl Error for Refusal {}

/// The refusal with which a call ends before any walk: no detail, and both counts 0.
///
/// ```
/// use ventolaire::{Errno, Refusal};
///
/// let refusal = Refusal::from(Errno::EMFILE);
/// assert_eq!(refusal.to_string(), "EMFILE (24); 0 components, 0 links");
/// ```
impl From<Errno> for Refusal {
    fn from(errno: Errno) -> Self {
        Refusal { errno, detail: Refusal::NO_DETAIL, components: 0, links: 0 }
    }
}

/// The refusal of every call on such a table.
impl From<Broken> for Refusal {
    fn from(_: Broken) -> Self {
        Errno::EUCLEAN.into()
    }
}

#[cfg(feature = "std")]
impl From<Refusal> for std::io::Error {
    fn from(refusal: Refusal) -> Self {
        refusal.errno.into()
    }
}

/// The lowest bit of an open_how that is not known.
///
/// ```
/// use ventolaire::UnknownBit;
///
/// assert_eq!(UnknownBit::Flags(18).to_string(), "unknown flags bit 18");
/// ```
#[derive(Clone, Copy, Debug, PartialEq, Eq, Hash)]
#[non_exhaustive]
pub enum UnknownBit {
    /// Bit 0 to 63 of the flags.
    Flags(u8),
    /// Bit 0 to 63 of resolve.
    Resolve(u8),
}

impl fmt::Display for UnknownBit {
    fn fmt(&self, f: &mut fmt::Formatter) -> fmt::Result {
        match self {
            UnknownBit::Flags(bit) => write!(f, "unknown flags bit {bit}"),
            UnknownBit::Resolve(bit) => write!(f, "unknown resolve bit {bit}"),
        }
    }
}

/// Why a table is not accepted: the lowest rule broken, 1 to 7, and the lowest
/// record that breaks it. [`Broken::cause`] says in words what in it does.
///
/// As a [`Refusal`], a [`NameRefusal`](crate::NameRefusal) or a `std::io::Error` it is
/// `EUCLEAN`, the answer to every call on such a table.
///
/// ```
/// use ventolaire::{bench_tree, Errno, Refusal, Table};
///
/// let mut image = bench_tree::IMAGE.to_vec();
/// image[20 + 12 * 3] = 9;
/// let broken = Table::new(&image).unwrap_err();
/// assert_eq!((broken.rule, broken.record), (4, 3));
/// assert_eq!(broken.to_string(), "rule 4 broken by node 3");
/// assert_eq!(Refusal::from(broken).errno, Errno::EUCLEAN);
/// ```
#[derive(Clone, Copy, Debug, PartialEq, Eq, Hash)]
#[non_exhaustive]
pub struct Broken {
    /// The rule.
    pub rule: u64,
    /// Of the nodes for rules 4 and 7, of the entries for 5, of the mounts for
    /// 6; 0 for rules 1 to 3. For rule 4 it may be the count of nodes: then the
    /// directories' counts do not sum to the count of entries.
    pub record: u64,
}

impl fmt::Display for Broken {
    fn fmt(&self, f: &mut fmt::Formatter) -> fmt::Result {
        let Broken { rule, record } = self;
        match rule {
            1 => write!(f, "rule 1 broken: the image is not 20 to 65,536 bytes long"),
            2 => write!(f, "rule 2 broken: no signature, or its zero field is not zero"),
            3 => write!(f, "rule 3 broken: the header's counts or lengths are wrong"),
            4 => write!(f, "rule 4 broken by node {record}"),
            5 => write!(f, "rule 5 broken by entry {record}"),
            6 => write!(f, "rule 6 broken by mount {record}"),
            7 => write!(f, "rule 7 broken by node {record}, a magic link"),
            _ => write!(f, "rule {rule} broken by record {record}"),
        }
    }
}

impl Error for Broken {}

#[cfg(feature = "std")]
impl From<Broken> for std::io::Error {
    fn from(broken: Broken) -> Self {
        Refusal::from(broken).into()
    }
}

fn write_counts(f: &mut fmt::Formatter, components: u64, links: u64) -> fmt::Result {
    let s = |count| if count == 1 { "" } else { "s" };
    write!(f, "{components} component{}, {links} link{}", s(components), s(links))
}
