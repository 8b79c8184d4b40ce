use crate::{ffi, Broken, Errno, Table};
use core::error::Error;
use core::fmt;

/// What an image is built from: records as an image has them, and the text that their offsets
/// reach into. In this text names and link bodies may stand in any order, overlap, be shared, or
/// have gaps between them.
///
/// The image has a text of its own, the names in the order of the entries and then the bodies in
/// the order of the nodes, without gaps or sharing. So one tree has one image, whatever parts it
/// was described by. The records' offsets are those in that text; all other fields stay.
///
/// ```
/// use ventolaire::{OpenHow, Parts, Table};
///
/// let parts = Parts {
///     // A directory with one entry, and a file: kind, parent, first, count.
///     nodes: b"\x01\0\0\0\0\0\0\0\x01\0\0\0\x02\0\0\0\0\0\0\0\0\0\0\0",
///     // Mount 0, on the directory: root, parent, point, zero.
///     mounts: &[0; 8],
///     // "tare" for the file: offset, length, node.
///     entries: b"\x04\0\0\0\x04\0\x01\0",
///     text: b"cal/tare",
/// };
/// let mut buffer = [0; 100];
/// let table = parts.build_into(&mut buffer)?;
/// assert_eq!(table.resolve(table.root(), "tare", OpenHow::new())?.place.node, 1);
/// assert!(table.image().len() == 64 && table.image().ends_with(b"tare"));
/// # Ok::<(), Box<dyn std::error::Error>>(())
/// ```
///
/// Refused is a tree whose image the table check would not accept, by the rule and the record
/// that it would name. Lengths are taken as the records give them. A name that reaches outside of
/// the text breaks rule 5, a body that does rule 4; bytes behind the last whole record of a part
/// break rule 3.
#[derive(Clone, Copy, Default, PartialEq, Eq, Hash)]
pub struct Parts<'a> {
    /// Node records of 12 bytes.
    pub nodes: &'a [u8],
    /// Mount records of 8 bytes.
    pub mounts: &'a [u8],
    /// Entry records of 8 bytes.
    pub entries: &'a [u8],
    /// The text.
    pub text: &'a [u8],
}

impl Parts<'_> {
    /// The most bytes that an image has: a buffer of so many is never too short.
    ///
    /// ```
    /// let mut buffer = [0; ventolaire::Parts::IMAGE_MAX];
    /// let parts = ventolaire::Table::new(ventolaire::bench_tree::IMAGE)?.parts();
    /// assert!(parts.build_into(&mut buffer).is_ok());
    /// # Ok::<(), ventolaire::Broken>(())
    /// ```
    pub const IMAGE_MAX: usize = ventolaire_sys::VENTOLAIRE_IMAGE_MAX;

    /// Writes the image to the start of a buffer: a table of it, which needs no check. What lies
    /// behind the image is not touched, and a refusal leaves the whole buffer as it was. Nothing
    /// is allocated.
    ///
    /// ```
    /// use ventolaire::{bench_tree, BuildError, Table};
    ///
    /// let parts = Table::new(bench_tree::IMAGE)?.parts();
    /// let mut buffer = [0xff; 320];
    /// assert_eq!(parts.build_into(&mut buffer)?.entries().len(), 10);
    /// assert_eq!(buffer[316..], [0xff; 4]);
    ///
    /// // A buffer of no bytes asks how long the image is.
    /// let error = parts.build_into(&mut []).unwrap_err();
    /// assert!(matches!(error, BuildError::Short { needed: 316, .. }));
    /// # Ok::<(), Box<dyn std::error::Error>>(())
    /// ```
    pub fn build_into<'b>(&self, buffer: &'b mut [u8]) -> Result<Table<'b>, BuildError> {
        ffi::build(self, buffer).map(Table::built).map_err(BuildError::of)
    }

    /// The image in memory of its own. Never refused as too short.
    ///
    /// ```
    /// use ventolaire::{bench_tree, Parts, Table};
    ///
    /// let image = Table::new(bench_tree::IMAGE)?.parts().build()?;
    /// assert_eq!(Table::new(&image)?.parts().build()?, image);
    ///
    /// let error = Parts::default().build().unwrap_err();
    /// assert!(error.to_string().starts_with("EUCLEAN (117); rule 3 broken"));
    /// # Ok::<(), Box<dyn std::error::Error>>(())
    /// ```
    #[cfg(feature = "std")]
    pub fn build(&self) -> Result<Vec<u8>, BuildError> {
        let mut image = vec![0; Self::IMAGE_MAX];
        let len = self.build_into(&mut image)?.image().len();
        image.truncate(len);
        image.shrink_to_fit();
        Ok(image)
    }
}

/// How long they are: the bytes themselves may be thousands.
impl fmt::Debug for Parts<'_> {
    fn fmt(&self, f: &mut fmt::Formatter) -> fmt::Result {
        f.debug_struct("Parts")
            .field("nodes", &self.nodes.len())
            .field("mounts", &self.mounts.len())
            .field("entries", &self.entries.len())
            .field("text", &self.text.len())
            .finish()
    }
}

/// Why no image is written.
///
/// As a `std::io::Error` it is the one of its errno's number, as a [`Refusal`](crate::Refusal)
/// is.
///
/// ```
/// use ventolaire::{bench_tree, BuildError, Errno, Parts, Table};
///
/// let parts = Table::new(bench_tree::IMAGE)?.parts();
/// let error = Parts { text: b"", ..parts }.build_into(&mut []).unwrap_err();
/// let BuildError::Broken(broken) = error else { panic!("{error}") };
/// assert_eq!((broken.rule, broken.record), (4, 4));
/// assert_eq!(error.to_string(), "EUCLEAN (117); rule 4 broken by node 4");
///
/// let error = parts.build_into(&mut [0; 315]).unwrap_err();
/// assert_eq!(error.errno(), Errno::ERANGE);
/// assert_eq!(error.to_string(), "ERANGE (34); 316 bytes needed");
/// # Ok::<(), ventolaire::Broken>(())
/// ```
#[derive(Clone, Copy, Debug, PartialEq, Eq, Hash)]
#[non_exhaustive]
pub enum BuildError {
    /// The table check would not accept the image, for this reason: `EUCLEAN`.
    Broken(Broken),
    /// The buffer is too short: `ERANGE`.
    #[non_exhaustive]
    Short {
        /// The length of the image.
        needed: usize,
    },
    /// A reason that this crate does not know.
    Other(Errno),
}

impl BuildError {
    /// The error of the four numbers that the library writes to a build.
    fn of([errno, rule, record, bytes]: [u64; 4]) -> Self {
        match (Errno::from_number(errno), usize::try_from(bytes)) {
            (Errno::EUCLEAN, _) => BuildError::Broken(Broken { rule, record }),
            (Errno::ERANGE, Ok(needed)) => BuildError::Short { needed },
            (errno, _) => BuildError::Other(errno),
        }
    }

    /// The reason by its number.
    ///
    /// ```
    /// use ventolaire::{Errno, Parts};
    ///
    /// let error = Parts::default().build_into(&mut []).unwrap_err();
    /// assert_eq!(error.errno(), Errno::EUCLEAN);
    /// ```
    pub const fn errno(&self) -> Errno {
        match self {
            BuildError::Broken(_) => Errno::EUCLEAN,
            BuildError::Short { .. } => Errno::ERANGE,
            BuildError::Other(errno) => *errno,
        }
    }
}

impl fmt::Display for BuildError {
    fn fmt(&self, f: &mut fmt::Formatter) -> fmt::Result {
        write!(f, "{}", self.errno())?;
        match self {
            // The header that an image's words speak of is not yet there.
            BuildError::Broken(Broken { rule: 3, .. }) => {
                f.write_str("; rule 3 broken: too many or too few records, or one cut short")
            }
            BuildError::Broken(broken) => write!(f, "; {broken}"),
            BuildError::Short { needed } => write!(f, "; {needed} bytes needed"),
            BuildError::Other(_) => Ok(()),
        }
    }
}

impl Error for BuildError {}

#[cfg(feature = "std")]
impl From<BuildError> for std::io::Error {
    fn from(error: BuildError) -> Self {
        error.errno().into()
    }
}
