use crate::ffi::Built;
use crate::records::{Entries, Mount, Mounts, Node, Nodes, Records};
use crate::{answer, check, ffi, lookup, AsPath, Broken, Descriptors, Found, FoundName, Handle};
use crate::{NameRefusal, OpenHow, Parts, Refusal};
use core::fmt;

/// A table that was checked: resolves any number of paths and looks up any number of
/// names without checking it again, and reads its records.
///
/// It borrows the image, which therefore stays as it was checked. Bytes that
/// somebody else can change meanwhile, such as a file that is mapped into memory,
/// are not for borrowing: copy them first.
///
/// ```
/// use ventolaire::{bench_tree, OpenHow, Resolve, Table};
///
/// let table = Table::new(bench_tree::IMAGE)?;
/// let lab = table.resolve(table.root(), "lab", OpenHow::new())?.place;
/// let found = table.resolve(lab, "cal/abs", OpenHow::new())?;
/// assert_eq!(found.to_string(), "(0,3); 5 components, 1 link");
///
/// let refusal = table.resolve(lab, "cal/abs", Resolve::BENEATH).unwrap_err();
/// assert_eq!(refusal.to_string(), "EXDEV (18); 2 components, 0 links");
/// # Ok::<(), Box<dyn std::error::Error>>(())
/// ```
///
/// As long as there is a table, its image cannot be changed:
///
/// ```compile_fail,E0506
/// let mut image = ventolaire::bench_tree::IMAGE.to_vec();
/// let table = ventolaire::Table::new(&image).unwrap();
/// image[0] = 0;
/// table.root();
/// ```
#[derive(Clone, Copy)]
pub struct Table<'a> {
    /// Accepted by the check: [`Table::new`] makes a table of what it accepts, [`Table::built`]
    /// of what the builder has written. `ffi` relies on it.
    image: &'a [u8],
    records: Records<'a>,
}

impl<'a> Table<'a> {
    /// Checks the image.
    ///
    /// ```
    /// use ventolaire::{bench_tree, Table};
    ///
    /// assert!(Table::new(bench_tree::IMAGE).is_ok());
    /// assert_eq!(Table::new(b"").unwrap_err().rule, 1);
    /// ```
    pub fn new(image: &'a [u8]) -> Result<Self, Broken> {
        check(image)?;
        Ok(Table { image, records: Records::of(image) })
    }

    /// The table of an image that `ffi` had built, and so one that the check accepts.
    pub(crate) fn built(image: Built<'a>) -> Self {
        let image = image.bytes();
        Table { image, records: Records::of(image) }
    }

    /// The image that it was made of.
    ///
    /// ```
    /// use ventolaire::{bench_tree, Table};
    ///
    /// assert_eq!(Table::new(bench_tree::IMAGE)?.image(), bench_tree::IMAGE);
    /// # Ok::<(), ventolaire::Broken>(())
    /// ```
    pub const fn image(&self) -> &'a [u8] {
        self.image
    }

    /// The root of mount 0 as a handle, where absolute paths begin. It is good in
    /// every table: the root is a directory, and no mount covers it (rule 6).
    ///
    /// ```
    /// use ventolaire::{bench_tree, Handle, Table};
    ///
    /// assert_eq!(Table::new(bench_tree::IMAGE)?.root(), Handle::new(0, 0));
    /// # Ok::<(), ventolaire::Broken>(())
    /// ```
    pub fn root(&self) -> Handle {
        Handle::new(0, self.mount(0).map_or(0, |mount| mount.root))
    }

    /// Resolves a path from a handle or a [`Place`](crate::Place). For an absolute path that may
    /// be any, unless it is marked or [`Resolve::IN_ROOT`](crate::Resolve::IN_ROOT) is set:
    /// [`Handle`] says when it is checked.
    ///
    /// ```
    /// use ventolaire::{bench_tree, Errno, Handle, OpenHow, Place, Resolve, Table};
    ///
    /// let table = Table::new(bench_tree::IMAGE)?;
    /// let lab = Handle::new(0, 1);
    /// let found = table.resolve(lab, "pool/run", OpenHow::new())?;
    /// assert_eq!(found.place, Place { mount: 1, node: 9 });
    ///
    /// let refusal = table.resolve(lab, "pool/run", Resolve::NO_XDEV).unwrap_err();
    /// assert_eq!(refusal.errno, Errno::EXDEV);
    /// assert_eq!(table.resolve(Handle::new(9, 99), "/lab", OpenHow::new())?.place.node, 1);
    /// # Ok::<(), Box<dyn std::error::Error>>(())
    /// ```
    pub fn resolve(
        &self,
        handle: impl Into<Handle>,
        path: impl AsPath,
        how: impl Into<OpenHow>,
    ) -> Result<Found, Refusal> {
        self.walk(handle.into(), path.path_bytes(), &how.into().to_bytes())
    }

    /// As [`Table::resolve`], with the bytes of an open_how as they come: of any
    /// length, and not always valid.
    ///
    /// ```
    /// use ventolaire::{bench_tree, Errno, Table};
    ///
    /// let table = Table::new(bench_tree::IMAGE)?;
    /// let refusal = table.resolve_raw(table.root(), "lab", [0; 23]).unwrap_err();
    /// assert_eq!(refusal.errno, Errno::EINVAL);
    /// # Ok::<(), ventolaire::Broken>(())
    /// ```
    pub fn resolve_raw(
        &self,
        handle: impl Into<Handle>,
        path: impl AsPath,
        how: impl AsRef<[u8]>,
    ) -> Result<Found, Refusal> {
        self.walk(handle.into(), path.path_bytes(), how.as_ref())
    }

    fn walk(&self, handle: Handle, path: &[u8], how: &[u8]) -> Result<Found, Refusal> {
        answer::of(ffi::resolve_accepted(self, handle, path, how))
    }

    /// Looks a name up in the directory of a number, by halving: of the names left the middle
    /// one is compared (of two, the earlier), and if it is not equal, only the side that can hold
    /// the name remains. So at most 12 names are compared in a directory of 3,000. Nothing is
    /// followed, and no mount is entered.
    ///
    /// Refused in this order: `EBADF` if there is no node of that number; `ENOTDIR` if it is no
    /// directory; `ENOENT` if it has no entry of that name. A name is any bytes: what can be no
    /// entry's, such as an empty one, `..`, or one with a slash, is not there.
    ///
    /// ```
    /// use ventolaire::{bench_tree, Errno, Table};
    ///
    /// let table = Table::new(bench_tree::IMAGE)?;
    /// let cal = table.lookup(1, "cal")?.node;
    /// let found = table.lookup(cal, "tare")?;
    /// assert_eq!(found.to_string(), "entry 7, node 3; 2 names compared");
    ///
    /// let refusal = table.lookup(cal, "nope").unwrap_err();
    /// assert_eq!(refusal.to_string(), "ENOENT (2); 3 names compared");
    /// assert_eq!(table.lookup(found.node, "x").unwrap_err().errno, Errno::ENOTDIR);
    /// assert_eq!(table.lookup(12, "x").unwrap_err().errno, Errno::EBADF);
    /// # Ok::<(), Box<dyn std::error::Error>>(())
    /// ```
    pub fn lookup(&self, node: u64, name: impl AsPath) -> Result<FoundName, NameRefusal> {
        lookup::of(ffi::lookup_accepted(self, node, name.path_bytes()))
    }

    /// Descriptors as a script starts with them: 0 is open on the root of mount 0, without the
    /// mark, and all others are closed. Each call makes others, which share nothing.
    ///
    /// ```
    /// use ventolaire::{bench_tree, Flags, Table};
    ///
    /// let table = Table::new(bench_tree::IMAGE)?;
    /// let mut descriptors = table.descriptors();
    /// let lab = descriptors.open_marked(0, "lab", Flags::DIRECTORY)?.descriptor;
    /// assert_eq!(lab, 1);
    /// assert!(!table.descriptors().is_open(lab));
    /// # Ok::<(), Box<dyn std::error::Error>>(())
    /// ```
    pub fn descriptors(&self) -> Descriptors<'a> {
        Descriptors::start(*self)
    }

    /// What it consists of, to be built again: the image of [`Parts::build`] holds the same tree,
    /// its text in order and nothing in it twice.
    ///
    /// ```
    /// use ventolaire::{bench_tree, Table};
    ///
    /// let parts = Table::new(bench_tree::IMAGE)?.parts();
    /// assert_eq!((parts.nodes.len(), parts.mounts.len(), parts.entries.len()), (144, 16, 80));
    /// let mut buffer = [0; 400];
    /// assert_eq!(parts.build_into(&mut buffer)?.image().len(), 316);
    /// # Ok::<(), Box<dyn std::error::Error>>(())
    /// ```
    pub fn parts(&self) -> Parts<'a> {
        self.records.parts()
    }

    /// Its nodes in the order of their numbers, each with its number.
    ///
    /// ```
    /// use ventolaire::{bench_tree, Node, Table};
    ///
    /// let table = Table::new(bench_tree::IMAGE)?;
    /// assert_eq!(table.nodes().len(), 12);
    /// let tops = table.nodes().filter(|(number, node)| {
    ///     matches!(node, Node::Directory { parent, .. } if parent == number)
    /// });
    /// assert_eq!(tops.map(|(number, _)| number).collect::<Vec<_>>(), [0, 8]);
    /// # Ok::<(), ventolaire::Broken>(())
    /// ```
    pub fn nodes(&self) -> Nodes<'a> {
        self.records.nodes()
    }

    /// The node of a number, if there is one.
    ///
    /// ```
    /// use ventolaire::{bench_tree, Node, Table};
    ///
    /// let table = Table::new(bench_tree::IMAGE)?;
    /// let Some(Node::MagicLink { target, .. }) = table.node(10) else { panic!("fd") };
    /// assert_eq!(target.to_string(), "(0,3)");
    /// assert!(table.node(12).is_none());
    /// # Ok::<(), ventolaire::Broken>(())
    /// ```
    pub fn node(&self, number: u64) -> Option<Node<'a>> {
        let (_, node) = self.nodes().nth(usize::try_from(number).ok()?)?;
        Some(node)
    }

    /// All entries: those of its directories, one directory after the other. The
    /// entries of one are in its [`Node`].
    ///
    /// ```
    /// use ventolaire::{bench_tree, Table};
    ///
    /// let table = Table::new(bench_tree::IMAGE)?;
    /// assert!(table.entries().any(|entry| entry.name == b"tare" && entry.node == 3));
    /// # Ok::<(), ventolaire::Broken>(())
    /// ```
    pub fn entries(&self) -> Entries<'a> {
        self.records.entries()
    }

    /// Its mounts in the order of their numbers, each with its number.
    ///
    /// ```
    /// use ventolaire::{bench_tree, Table};
    ///
    /// let table = Table::new(bench_tree::IMAGE)?;
    /// let covered = table.mounts().skip(1).map(|(_, mount)| mount.place().to_string());
    /// assert_eq!(covered.collect::<Vec<_>>(), ["(0,7)"]);
    /// # Ok::<(), ventolaire::Broken>(())
    /// ```
    pub fn mounts(&self) -> Mounts<'a> {
        self.records.mounts()
    }

    /// The mount of a number, if there is one.
    ///
    /// ```
    /// use ventolaire::{bench_tree, Table};
    ///
    /// let table = Table::new(bench_tree::IMAGE)?;
    /// assert_eq!(table.mount(1).map(|mount| mount.root), Some(8));
    /// assert_eq!(table.mount(2), None);
    /// # Ok::<(), ventolaire::Broken>(())
    /// ```
    pub fn mount(&self, number: u64) -> Option<Mount> {
        let (_, mount) = self.mounts().nth(usize::try_from(number).ok()?)?;
        Some(mount)
    }

    /// The directories that no entry names, tops of trees aside, each with its parent.
    ///
    /// ```
    /// use ventolaire::{bench_tree, Table};
    ///
    /// assert_eq!(Table::new(bench_tree::IMAGE)?.nameless(), []);
    /// # Ok::<(), ventolaire::Broken>(())
    /// ```
    #[cfg(feature = "std")]
    pub fn nameless(&self) -> Vec<(u64, u64)> {
        let mut named = vec![false; self.nodes().len()];
        self.entries().for_each(|entry| named[entry.node as usize] = true);
        let directories = self.nodes().filter_map(|(number, node)| match node {
            Node::Directory { parent, .. } if parent != number => Some((number, parent)),
            _ => None,
        });
        directories.filter(|(number, _)| !named[*number as usize]).collect()
    }
}

/// Checks the image, as [`Table::new`] does.
impl<'a> TryFrom<&'a [u8]> for Table<'a> {
    type Error = Broken;

    fn try_from(image: &'a [u8]) -> Result<Self, Broken> {
        Table::new(image)
    }
}

/// How many records it has: the records themselves may be thousands.
impl fmt::Debug for Table<'_> {
    fn fmt(&self, f: &mut fmt::Formatter) -> fmt::Result {
        f.debug_struct("Table")
            .field("nodes", &self.nodes().len())
            .field("mounts", &self.mounts().len())
            .field("entries", &self.entries().len())
            .finish_non_exhaustive()
    }
}
