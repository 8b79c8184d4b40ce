use core::fmt;

/// A node as seen in a mount.
///
/// ```
/// use ventolaire::Place;
///
/// assert_eq!(Place { mount: 0, node: 3 }.to_string(), "(0,3)");
/// ```
#[derive(Clone, Copy, Debug, PartialEq, Eq, PartialOrd, Ord, Hash)]
pub struct Place {
    /// The mount's number.
    pub mount: u64,
    /// The node's number.
    pub node: u64,
}

impl fmt::Display for Place {
    fn fmt(&self, f: &mut fmt::Formatter) -> fmt::Result {
        write!(f, "({},{})", self.mount, self.node)
    }
}

/// The directory that a relative path starts from. Any numbers make a handle: it is the
/// library that refuses a bad one. A [`Place`] becomes one without the mark.
///
/// ```
/// use ventolaire::{Handle, Place};
///
/// let handle = Handle::new(0, 1).marked();
/// assert_eq!(handle, Handle { mount: 0, node: 1, mark: true });
/// assert_eq!(Handle::from(Place { mount: 0, node: 1 }), Handle::new(0, 1));
/// ```
///
/// It is checked before the walk: `EBADF` if there is no such mount or node; `ENOTDIR` if the
/// node is not a directory; `EBADF` if it is not under the root of the mount, or if another mount
/// covers it there. It is not checked where it has no use: for an absolute path, without the mark
/// and without [`Resolve::IN_ROOT`]. [`Resolve::BENEATH`] refuses such a path with `EXDEV`,
/// whatever the handle.
///
/// [`Resolve::IN_ROOT`]: crate::Resolve::IN_ROOT
/// [`Resolve::BENEATH`]: crate::Resolve::BENEATH
///
/// ```
/// use ventolaire::{bench_tree, Errno, Handle, OpenHow, Resolve, Table};
///
/// let table = Table::new(bench_tree::IMAGE)?;
/// let nowhere = Handle::new(9, 99);
/// let found = table.resolve(nowhere, "/lab", OpenHow::new())?;
/// assert_eq!(found.to_string(), "(0,1); 1 component, 0 links");
///
/// let errno = |handle, path, how| table.resolve(handle, path, how).unwrap_err().errno;
/// assert_eq!(errno(nowhere, "lab", OpenHow::new()), Errno::EBADF);
/// assert_eq!(errno(nowhere.marked(), "/lab", OpenHow::new()), Errno::EBADF);
/// assert_eq!(errno(nowhere, "/lab", Resolve::IN_ROOT.into()), Errno::EBADF);
/// assert_eq!(errno(nowhere, "/lab", Resolve::BENEATH.into()), Errno::EXDEV);
/// # Ok::<(), Box<dyn std::error::Error>>(())
/// ```
#[derive(Clone, Copy, Debug, PartialEq, Eq, Hash)]
pub struct Handle {
    /// The mount's number.
    pub mount: u64,
    /// The directory's number.
    pub node: u64,
    /// A marked handle is never left, whatever the [`OpenHow`](crate::OpenHow)
    /// says.
    pub mark: bool,
}

impl Handle {
    /// A handle without the mark.
    ///
    /// ```
    /// assert!(!ventolaire::Handle::new(0, 1).mark);
    /// ```
    pub const fn new(mount: u64, node: u64) -> Self {
        Handle { mount, node, mark: false }
    }

    /// The handle with the mark.
    ///
    /// ```
    /// use ventolaire::{bench_tree, Errno, OpenHow, Table};
    ///
    /// let table = Table::new(bench_tree::IMAGE)?;
    /// let refusal = table.resolve(table.root().marked(), "..", OpenHow::new()).unwrap_err();
    /// assert_eq!(refusal.errno, Errno::ENOENT);
    /// # Ok::<(), ventolaire::Broken>(())
    /// ```
    #[must_use]
    pub const fn marked(self) -> Self {
        Handle { mark: true, ..self }
    }
}

impl From<Place> for Handle {
    fn from(place: Place) -> Self {
        Handle::new(place.mount, place.node)
    }
}
