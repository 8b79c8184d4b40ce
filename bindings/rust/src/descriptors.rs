use crate::ffi::{self, Slots};
use crate::{answer, AsPath, OpenHow, Opened, Refusal, Table};
use core::fmt;

/// Descriptors, the numbers that a script holds in place of handles: 0 to 63, each closed, or
/// open on a place of a table with its mark or without.
///
/// [`Table::descriptors`] starts them: 0 is open on the root of mount 0, without the mark, and
/// all others are closed. What is opened or duplicated gets the lowest number that is free; a
/// number that was closed is free again. Numbers are plain, as `std::os::fd::RawFd` is: any may
/// be passed, and one that is not open is refused with `EBADF`. A refusal leaves all 64 as they
/// were.
///
/// A marked descriptor is never left, whatever the [`OpenHow`] says, and its mark cannot be
/// taken off. What is opened through it is a descriptor of its own, marked only if that is asked
/// for.
///
/// ```
/// use ventolaire::{bench_tree, Errno, Flags, OpenHow, Table};
///
/// let mut descriptors = Table::new(bench_tree::IMAGE)?.descriptors();
/// let lab = descriptors.open_marked(0, "lab", Flags::DIRECTORY)?.descriptor;
/// let refusal = descriptors.open(lab, "..", OpenHow::new()).unwrap_err();
/// assert_eq!(refusal.errno, Errno::ENOENT);
///
/// let cal = descriptors.open(lab, "cal", OpenHow::new())?.descriptor;
/// assert!(descriptors.open(cal, "..", OpenHow::new()).is_ok());
/// descriptors.set_mark(cal)?;
/// assert!(descriptors.open(cal, "..", OpenHow::new()).is_err());
/// # Ok::<(), Box<dyn std::error::Error>>(())
/// ```
///
/// Over a table that is refused there are none: [`Table::new`] says so, which as a [`Refusal`] is
/// `EUCLEAN`. In C, where a script can be started with any image, all numbers are closed then and
/// each call is refused with `EBADF`.
///
/// A clone has the same descriptors, and neither sees what the other does from then on, as with
/// a process that forks. Two are equal if their images and their descriptors are: then any calls
/// have the same replies from both. Dropping them closes nothing, since nothing is held outside.
#[derive(Clone)]
pub struct Descriptors<'a> {
    table: Table<'a>,
    /// As the library keeps them: 0 is closed.
    slots: Slots,
}

impl<'a> Descriptors<'a> {
    /// How many there are, open or closed.
    ///
    /// ```
    /// use ventolaire::{bench_tree, Descriptors, Errno, Table};
    ///
    /// let mut descriptors = Table::new(bench_tree::IMAGE)?.descriptors();
    /// while descriptors.duplicate(0).is_ok() {}
    /// assert_eq!(descriptors.numbers().count() as u64, Descriptors::COUNT);
    /// assert_eq!(descriptors.duplicate(0).unwrap_err().errno, Errno::EMFILE);
    /// # Ok::<(), ventolaire::Broken>(())
    /// ```
    pub const COUNT: u64 = 64;

    pub(crate) fn start(table: Table<'a>) -> Self {
        Descriptors { slots: ffi::start_accepted(&table), table }
    }

    /// The table that they were started over.
    ///
    /// ```
    /// use ventolaire::{bench_tree, Table};
    ///
    /// let descriptors = Table::new(bench_tree::IMAGE)?.descriptors();
    /// assert_eq!(descriptors.table().image(), bench_tree::IMAGE);
    /// # Ok::<(), ventolaire::Broken>(())
    /// ```
    pub const fn table(&self) -> Table<'a> {
        self.table
    }

    /// Whether a number is open.
    ///
    /// ```
    /// use ventolaire::{bench_tree, Table};
    ///
    /// let descriptors = Table::new(bench_tree::IMAGE)?.descriptors();
    /// assert!(descriptors.is_open(0) && !descriptors.is_open(1) && !descriptors.is_open(64));
    /// # Ok::<(), ventolaire::Broken>(())
    /// ```
    pub fn is_open(&self, number: u64) -> bool {
        self.numbers().any(|open| open == number)
    }

    /// The numbers that are open, ascending.
    ///
    /// ```
    /// use ventolaire::{bench_tree, Table};
    ///
    /// let mut descriptors = Table::new(bench_tree::IMAGE)?.descriptors();
    /// descriptors.duplicate(0)?;
    /// descriptors.duplicate(0)?;
    /// descriptors.close(1)?;
    /// assert!(descriptors.numbers().eq([0, 2]));
    /// # Ok::<(), Box<dyn std::error::Error>>(())
    /// ```
    pub fn numbers(&self) -> impl Iterator<Item = u64> + '_ {
        let numbered = (0..).zip(&self.slots.slots);
        numbered.filter(|(_, slot)| **slot != ffi::CLOSED).map(|(number, _)| number)
    }

    /// Opens a path from a descriptor, without the mark, as [`Table::resolve`] resolves it from
    /// a handle.
    ///
    /// Refused in this order: `EBADF` if `number` is not open, whatever the path; what the
    /// resolver refuses; `EMFILE` if all descriptors are open. So a number that is open on a file,
    /// or on a covered directory without the mark, opens absolute paths alone
    /// ([`Handle`](crate::Handle)).
    ///
    /// ```
    /// use ventolaire::{bench_tree, Errno, OpenHow, Resolve, Table};
    ///
    /// let mut descriptors = Table::new(bench_tree::IMAGE)?.descriptors();
    /// let lab = descriptors.open(0, "lab", OpenHow::new())?;
    /// assert_eq!(lab.to_string(), "1 = (0,1); 1 component, 0 links");
    ///
    /// let refusal = descriptors.open(1, "pool/run", Resolve::NO_XDEV).unwrap_err();
    /// assert_eq!(refusal.to_string(), "EXDEV (18); 1 component, 0 links");
    /// assert_eq!(descriptors.open(2, "/lab", OpenHow::new()).unwrap_err().errno, Errno::EBADF);
    /// # Ok::<(), Box<dyn std::error::Error>>(())
    /// ```
    pub fn open(
        &mut self,
        number: u64,
        path: impl AsPath,
        how: impl Into<OpenHow>,
    ) -> Result<Opened, Refusal> {
        self.open_by(number, false, path.path_bytes(), &how.into().to_bytes())
    }

    /// As [`Descriptors::open`], with the mark. It wants [`Flags::DIRECTORY`]: without that it is
    /// refused with `EINVAL`, after `EBADF` and before all else.
    ///
    /// [`Flags::DIRECTORY`]: crate::Flags::DIRECTORY
    ///
    /// ```
    /// use ventolaire::{bench_tree, Errno, Flags, OpenHow, Table};
    ///
    /// let mut descriptors = Table::new(bench_tree::IMAGE)?.descriptors();
    /// let lab = descriptors.open_marked(0, "lab", Flags::DIRECTORY)?.descriptor;
    /// assert_eq!(descriptors.open(lab, "/", OpenHow::new()).unwrap_err().errno, Errno::ENOENT);
    ///
    /// let refusal = descriptors.open_marked(0, "lab", OpenHow::new()).unwrap_err();
    /// assert_eq!(refusal.errno, Errno::EINVAL);
    /// # Ok::<(), Box<dyn std::error::Error>>(())
    /// ```
    pub fn open_marked(
        &mut self,
        number: u64,
        path: impl AsPath,
        how: impl Into<OpenHow>,
    ) -> Result<Opened, Refusal> {
        self.open_by(number, true, path.path_bytes(), &how.into().to_bytes())
    }

    /// Opens a path with the mark or without, and with the bytes of an open_how as they come: of
    /// any length, and not always valid. Of under 24 bytes they are refused with `EINVAL` as the
    /// resolver does, whether the mark is asked for or not.
    ///
    /// ```
    /// use ventolaire::{bench_tree, Errno, Flags, OpenHow, Table, UnknownBit};
    ///
    /// let mut descriptors = Table::new(bench_tree::IMAGE)?.descriptors();
    /// let mut how = OpenHow::from(Flags::DIRECTORY).to_bytes();
    /// assert_eq!(descriptors.open_raw(0, true, "lab", how)?.descriptor, 1);
    ///
    /// how[16] = 1 << 5;
    /// let refusal = descriptors.open_raw(0, true, "lab", how).unwrap_err();
    /// assert_eq!(refusal.unknown_bit(), Some(UnknownBit::Resolve(5)));
    /// # Ok::<(), Box<dyn std::error::Error>>(())
    /// ```
    pub fn open_raw(
        &mut self,
        number: u64,
        mark: bool,
        path: impl AsPath,
        how: impl AsRef<[u8]>,
    ) -> Result<Opened, Refusal> {
        self.open_by(number, mark, path.path_bytes(), how.as_ref())
    }

    fn open_by(
        &mut self,
        number: u64,
        mark: bool,
        path: &[u8],
        how: &[u8],
    ) -> Result<Opened, Refusal> {
        let Descriptors { table, slots } = self;
        answer::reply(ffi::open_accepted(table, slots, number, mark, path, how))
    }

    /// Gives the lowest number that is free the place of `number`, and its mark. A mark that
    /// either gets later is its own.
    ///
    /// `EBADF` if `number` is not open, then `EMFILE` if all descriptors are.
    ///
    /// ```
    /// use ventolaire::{bench_tree, OpenHow, Table};
    ///
    /// let mut descriptors = Table::new(bench_tree::IMAGE)?.descriptors();
    /// let before = descriptors.duplicate(0)?;
    /// descriptors.set_mark(0)?;
    /// let after = descriptors.duplicate(0)?;
    /// assert!(descriptors.open(before, "..", OpenHow::new()).is_ok());
    /// assert!(descriptors.open(after, "..", OpenHow::new()).is_err());
    /// # Ok::<(), Box<dyn std::error::Error>>(())
    /// ```
    pub fn duplicate(&mut self, number: u64) -> Result<u64, Refusal> {
        answer::reply(ffi::duplicate(&mut self.slots, number)).map(|given| given.descriptor)
    }

    /// Closes a number, which is free then. `EBADF` if it is not open.
    ///
    /// ```
    /// use ventolaire::{bench_tree, Errno, OpenHow, Table};
    ///
    /// let mut descriptors = Table::new(bench_tree::IMAGE)?.descriptors();
    /// let lab = descriptors.open(0, "lab", OpenHow::new())?.descriptor;
    /// descriptors.close(0)?;
    /// assert_eq!(descriptors.close(0).unwrap_err().errno, Errno::EBADF);
    /// assert_eq!(descriptors.duplicate(lab), Ok(0));
    /// # Ok::<(), Box<dyn std::error::Error>>(())
    /// ```
    pub fn close(&mut self, number: u64) -> Result<(), Refusal> {
        answer::reply(ffi::close(&mut self.slots, number)).map(|_| ())
    }

    /// Marks a descriptor, for good; one that is marked already stays so.
    ///
    /// `EBADF` if it is not open, then `ENOTTY` if it is not open on a directory.
    ///
    /// ```
    /// use ventolaire::{bench_tree, Errno, OpenHow, Table};
    ///
    /// let mut descriptors = Table::new(bench_tree::IMAGE)?.descriptors();
    /// descriptors.set_mark(0)?;
    /// assert_eq!(descriptors.open(0, "..", OpenHow::new()).unwrap_err().errno, Errno::ENOENT);
    ///
    /// let tare = descriptors.open(0, "lab/cal/tare", OpenHow::new())?.descriptor;
    /// assert_eq!(descriptors.set_mark(tare).unwrap_err().errno, Errno::ENOTTY);
    /// # Ok::<(), Box<dyn std::error::Error>>(())
    /// ```
    pub fn set_mark(&mut self, number: u64) -> Result<(), Refusal> {
        answer::reply(ffi::set_mark(&self.table, &mut self.slots, number)).map(|_| ())
    }
}

/// Compares the images' bytes and all 64 descriptors.
impl PartialEq for Descriptors<'_> {
    fn eq(&self, other: &Self) -> bool {
        self.slots == other.slots && self.table.image() == other.table.image()
    }
}

impl Eq for Descriptors<'_> {}

/// The table, and the numbers that are open.
impl fmt::Debug for Descriptors<'_> {
    fn fmt(&self, f: &mut fmt::Formatter) -> fmt::Result {
        struct Numbers<'a>(&'a Descriptors<'a>);

        impl fmt::Debug for Numbers<'_> {
            fn fmt(&self, f: &mut fmt::Formatter) -> fmt::Result {
                f.debug_list().entries(self.0.numbers()).finish()
            }
        }

        f.debug_struct("Descriptors")
            .field("table", &self.table)
            .field("open", &Numbers(self))
            .finish()
    }
}
