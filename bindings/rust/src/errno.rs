use core::error::Error;
use core::fmt;

/// Why a call is refused, by Linux's names and numbers.
///
/// ```
/// use ventolaire::Errno;
///
/// assert_eq!(Errno::EXDEV.to_string(), "EXDEV (18)");
/// # #[cfg(feature = "std")]
/// assert_eq!(std::io::Error::from(Errno::EXDEV).raw_os_error(), Some(18));
/// ```
#[derive(Clone, Copy, Debug, PartialEq, Eq, Hash)]
#[non_exhaustive]
pub enum Errno {
    /// The table check fails.
    EUCLEAN,
    /// The open_how is over 4,096 bytes, or something stands behind its 24th.
    E2BIG,
    /// The open_how is not valid, the path has a zero byte, or the mark is asked for
    /// without `O_DIRECTORY`.
    EINVAL,
    /// The path is over 4,095 bytes, or a name in it over 255.
    ENAMETOOLONG,
    /// The path is empty, a name is not there, or the handle's mark is broken.
    ENOENT,
    /// The handle is not a place that a handle can have, the descriptor is not open, or there is
    /// no node of that number to look a name up in. [`Handle`](crate::Handle) says when a handle
    /// is checked.
    EBADF,
    /// Not a directory where one is needed, such as a handle that is checked.
    ENOTDIR,
    /// Over 40 links, or a link that is not to be followed.
    ELOOP,
    /// The path leaves the mount or the handle.
    EXDEV,
    /// All 64 descriptors are open.
    EMFILE,
    /// The mark is set on what is not a directory.
    ENOTTY,
    /// The buffer is too short for the image that is to be written.
    ERANGE,
    /// A number that this crate has no name for.
    Other(u64),
}

impl Errno {
    /// All that have a name, in the library's order.
    ///
    /// ```
    /// use ventolaire::Errno;
    ///
    /// assert!(Errno::ALL.contains(&Errno::ELOOP));
    /// ```
    pub const ALL: &'static [Errno] = &[
        Errno::EUCLEAN,
        Errno::E2BIG,
        Errno::EINVAL,
        Errno::ENAMETOOLONG,
        Errno::ENOENT,
        Errno::EBADF,
        Errno::ENOTDIR,
        Errno::ELOOP,
        Errno::EXDEV,
        Errno::EMFILE,
        Errno::ENOTTY,
        Errno::ERANGE,
    ];

    /// The errno of a number.
    ///
    /// ```
    /// use ventolaire::Errno;
    ///
    /// assert_eq!(Errno::from_number(2), Errno::ENOENT);
    /// assert_eq!(Errno::from_number(1), Errno::Other(1));
    /// ```
    pub fn from_number(number: u64) -> Self {
        let known = Errno::ALL.iter().find(|errno| errno.number() == number);
        known.copied().unwrap_or(Errno::Other(number))
    }

    /// Its number.
    ///
    /// ```
    /// assert_eq!(ventolaire::Errno::EUCLEAN.number(), 117);
    /// ```
    pub const fn number(self) -> u64 {
        match self {
            Errno::EUCLEAN => 117,
            Errno::E2BIG => 7,
            Errno::EINVAL => 22,
            Errno::ENAMETOOLONG => 36,
            Errno::ENOENT => 2,
            Errno::EBADF => 9,
            Errno::ENOTDIR => 20,
            Errno::ELOOP => 40,
            Errno::EXDEV => 18,
            Errno::EMFILE => 24,
            Errno::ENOTTY => 25,
            Errno::ERANGE => 34,
            Errno::Other(number) => number,
        }
    }

    /// Its name, such as `"EXDEV"`.
    ///
    /// ```
    /// assert_eq!(ventolaire::Errno::E2BIG.name(), "E2BIG");
    /// ```
    pub const fn name(self) -> &'static str {
        match self {
            Errno::EUCLEAN => "EUCLEAN",
            Errno::E2BIG => "E2BIG",
            Errno::EINVAL => "EINVAL",
            Errno::ENAMETOOLONG => "ENAMETOOLONG",
            Errno::ENOENT => "ENOENT",
            Errno::EBADF => "EBADF",
            Errno::ENOTDIR => "ENOTDIR",
            Errno::ELOOP => "ELOOP",
            Errno::EXDEV => "EXDEV",
            Errno::EMFILE => "EMFILE",
            Errno::ENOTTY => "ENOTTY",
            Errno::ERANGE => "ERANGE",
            Errno::Other(_) => "unknown errno",
        }
    }
}

impl fmt::Display for Errno {
    fn fmt(&self, f: &mut fmt::Formatter) -> fmt::Result {
        write!(f, "{} ({})", self.name(), self.number())
    }
}

impl Error for Errno {}

/// The error of its number, which is Linux's, whatever the host's numbers are.
#[cfg(feature = "std")]
impl From<Errno> for std::io::Error {
    fn from(errno: Errno) -> Self {
        match i32::try_from(errno.number()) {
            Ok(number) => std::io::Error::from_raw_os_error(number),
            Err(_) => std::io::Error::other(errno),
        }
    }
}
