use core::ffi::CStr;

/// What a path, or a name to be looked up, can be given as: bytes, a `str`, a C string
/// and, with the feature `std`, a `String`, `Vec`, `OsStr` or `Path` and their like.
///
/// Its bytes are taken as they are: nothing is decoded, normalised or cut off, and a
/// path that holds a zero byte is refused with `EINVAL`. Of a C string they are those
/// before its NUL. `OsStr` and `Path` are there on Unix, where they are bytes.
///
/// ```
/// use std::path::Path;
/// use ventolaire::{bench_tree, OpenHow, Table};
///
/// let table = Table::new(bench_tree::IMAGE)?;
/// let root = table.root();
/// let found = table.resolve(root, "lab/cal", OpenHow::new())?;
/// assert_eq!(table.resolve(root, b"lab/cal", OpenHow::new())?, found);
/// assert_eq!(table.resolve(root, c"lab/cal", OpenHow::new())?, found);
/// # #[cfg(all(unix, feature = "std"))]
/// assert_eq!(table.resolve(root, Path::new("lab").join("cal"), OpenHow::new())?, found);
/// # Ok::<(), Box<dyn std::error::Error>>(())
/// ```
pub trait AsPath {
    /// The path's bytes.
    ///
    /// ```
    /// use ventolaire::AsPath;
    ///
    /// assert_eq!(c"cal/tare".path_bytes(), b"cal/tare");
    /// ```
    fn path_bytes(&self) -> &[u8];
}

/// Types as paths, each by an expression for its bytes.
macro_rules! paths {
    ($($Type:ty: $own:ident => $bytes:expr;)*) => {$(
        impl AsPath for $Type {
            fn path_bytes(&self) -> &[u8] {
                let $own = self;
                $bytes
            }
        }
    )*};
}

paths! {
    [u8]: own => own;
    str: own => own.as_bytes();
    CStr: own => own.to_bytes();
}

impl<const N: usize> AsPath for [u8; N] {
    fn path_bytes(&self) -> &[u8] {
        self
    }
}

impl<P: AsPath + ?Sized> AsPath for &P {
    fn path_bytes(&self) -> &[u8] {
        (**self).path_bytes()
    }
}

#[cfg(feature = "std")]
mod with_std {
    use super::AsPath;
    use std::borrow::Cow;
    use std::ffi::CString;

    paths! {
        Vec<u8>: own => own;
        String: own => own.as_bytes();
        CString: own => own.to_bytes();
    }

    impl<P: AsPath + ?Sized> AsPath for Box<P> {
        fn path_bytes(&self) -> &[u8] {
            (**self).path_bytes()
        }
    }

    impl<P: AsPath + ToOwned + ?Sized> AsPath for Cow<'_, P> {
        fn path_bytes(&self) -> &[u8] {
            (**self).path_bytes()
        }
    }

    #[cfg(unix)]
    mod unix {
        use super::AsPath;
        use std::ffi::{OsStr, OsString};
        use std::os::unix::ffi::OsStrExt;
        use std::path::{Path, PathBuf};

        paths! {
            OsStr: own => own.as_bytes();
            OsString: own => own.as_bytes();
            Path: own => own.as_os_str().as_bytes();
            PathBuf: own => own.as_os_str().as_bytes();
        }
    }
}
