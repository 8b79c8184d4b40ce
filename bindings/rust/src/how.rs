use crate::bits::bits;

bits! {
    /// The flags of an [`OpenHow`].
    ///
    /// ```
    /// use ventolaire::Flags;
    ///
    /// let flags = Flags::PATH | Flags::NOFOLLOW;
    /// assert_eq!(flags.to_string(), "O_NOFOLLOW | O_PATH");
    /// assert_eq!(format!("{flags:?}"), "Flags(O_NOFOLLOW | O_PATH)");
    /// assert_eq!("PATH|O_NOFOLLOW".parse(), Ok(flags));
    /// assert_eq!(flags & !Flags::PATH, Flags::NOFOLLOW);
    /// ```
    Flags, "O_", PATH, NOFOLLOW {
        /// Find directories only.
        DIRECTORY = 0x1_0000,
        /// Do not follow a link that is the last component.
        NOFOLLOW = 0x2_0000,
        /// Known, without effect.
        CLOEXEC = 0x8_0000,
        /// A link itself may be found.
        PATH = 0x20_0000,
    }
}

bits! {
    /// The restrictions of an [`OpenHow`].
    ///
    /// ```
    /// use ventolaire::Resolve;
    ///
    /// let resolve = Resolve::NO_XDEV | Resolve::from_bits_retain(1 << 40);
    /// assert_eq!(resolve.to_string(), "RESOLVE_NO_XDEV | 0x10000000000");
    /// assert_eq!(resolve.to_string().parse(), Ok(resolve));
    /// assert!(resolve.contains(Resolve::NO_XDEV));
    /// ```
    Resolve, "RESOLVE_", BENEATH, NO_XDEV {
        /// Stay in the mount.
        NO_XDEV = 1,
        /// Follow no magic link.
        NO_MAGICLINKS = 2,
        /// Follow no link at all.
        NO_SYMLINKS = 4,
        /// Never leave the handle; excludes `IN_ROOT`.
        BENEATH = 8,
        /// Take the handle as "/"; excludes `BENEATH`.
        IN_ROOT = 16,
    }
}

/// How to resolve a path, after openat2's `struct open_how`; its mode is 0.
///
/// ```
/// use ventolaire::{Flags, OpenHow, Resolve};
///
/// const HOW: OpenHow = OpenHow::new().flags(Flags::PATH).resolve(Resolve::BENEATH);
/// assert_eq!(HOW.flags, Flags::PATH);
/// assert_eq!(OpenHow::from(Flags::PATH).resolve(Resolve::BENEATH), HOW);
/// assert_eq!(OpenHow::new(), OpenHow::default());
/// ```
#[derive(Clone, Copy, Debug, Default, PartialEq, Eq, Hash)]
#[non_exhaustive]
pub struct OpenHow {
    /// What is to be found.
    pub flags: Flags,
    /// What the walk may not do.
    pub resolve: Resolve,
}

impl OpenHow {
    /// How many bytes it has.
    ///
    /// ```
    /// assert_eq!(ventolaire::OpenHow::LEN, 24);
    /// ```
    pub const LEN: usize = 24;

    /// One with no flag and no restriction.
    ///
    /// ```
    /// assert!(ventolaire::OpenHow::new().flags.is_empty());
    /// ```
    pub const fn new() -> Self {
        OpenHow { flags: Flags::empty(), resolve: Resolve::empty() }
    }

    /// With these flags in place of those before.
    ///
    /// ```
    /// use ventolaire::{Flags, OpenHow};
    ///
    /// assert_eq!(OpenHow::new().flags(Flags::DIRECTORY), Flags::DIRECTORY.into());
    /// ```
    #[must_use]
    pub const fn flags(self, flags: Flags) -> Self {
        OpenHow { flags, ..self }
    }

    /// With these restrictions in place of those before.
    ///
    /// ```
    /// use ventolaire::{OpenHow, Resolve};
    ///
    /// assert_eq!(OpenHow::new().resolve(Resolve::IN_ROOT), Resolve::IN_ROOT.into());
    /// ```
    #[must_use]
    pub const fn resolve(self, resolve: Resolve) -> Self {
        OpenHow { resolve, ..self }
    }

    /// Its bytes: flags, mode with padding and resolve, each little-endian.
    ///
    /// ```
    /// use ventolaire::{OpenHow, Resolve};
    ///
    /// let mut bytes = [0; OpenHow::LEN];
    /// bytes[16] = 8;
    /// assert_eq!(OpenHow::from(Resolve::BENEATH).to_bytes(), bytes);
    /// ```
    pub const fn to_bytes(self) -> [u8; OpenHow::LEN] {
        let mut bytes = [0; OpenHow::LEN];
        let (flags, rest) = bytes.split_at_mut(8);
        flags.copy_from_slice(&self.flags.bits().to_le_bytes());
        let (_mode, resolve) = rest.split_at_mut(8);
        resolve.copy_from_slice(&self.resolve.bits().to_le_bytes());
        bytes
    }
}

impl From<Flags> for OpenHow {
    fn from(flags: Flags) -> Self {
        OpenHow::new().flags(flags)
    }
}

impl From<Resolve> for OpenHow {
    fn from(resolve: Resolve) -> Self {
        OpenHow::new().resolve(resolve)
    }
}
