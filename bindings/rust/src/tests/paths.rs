//! What a path can be given as.

use super::LAB;
use crate::bench_tree::IMAGE;
use crate::*;

#[test]
fn paths_are_bytes_of_many_types() {
    let table = Table::new(IMAGE).unwrap();
    let place = |path: &dyn AsPath| {
        let found = table.resolve(LAB, path.path_bytes(), OpenHow::new());
        found.map(|found| found.place.node)
    };
    assert_eq!(place(&"cal/tare"), Ok(3));
    assert_eq!(place(b"cal/tare"), Ok(3));
    assert_eq!(place(&&b"cal/tare"[..]), Ok(3));
    assert_eq!(place(&c"cal/tare"), Ok(3));
    let name = |name: &dyn AsPath| table.lookup(2, name.path_bytes()).map(|found| found.node);
    assert_eq!([name(&"tare"), name(b"tare"), name(&c"tare")], [Ok(3); 3]);
    // Taken as they are: not folded, cut off, or decoded.
    let errno = |path: &dyn AsPath| place(path).map_err(|refusal| refusal.errno);
    assert_eq!(errno(&"cal//./tare/"), Err(Errno::ENOTDIR));
    assert_eq!(errno(&"cal/tare\0"), Err(Errno::EINVAL));
    assert_eq!(errno(b"\xff\xfe"), Err(Errno::ENOENT));
}

#[cfg(all(unix, feature = "std"))]
#[test]
fn paths_are_bytes_of_stds_types_too() {
    use std::borrow::Cow;
    use std::ffi::{CString, OsStr, OsString};
    use std::os::unix::ffi::OsStrExt;
    use std::path::{Path, PathBuf};
    let table = Table::new(IMAGE).unwrap();
    fn found(table: &Table, path: impl AsPath) -> bool {
        table.resolve(LAB, path, OpenHow::new()).is_ok_and(|found| found.place.node == 3)
    }
    assert!(found(&table, String::from("cal/tare")) && found(&table, b"cal/tare".to_vec()));
    assert!(found(&table, CString::new("cal/tare").unwrap()));
    assert!(found(&table, OsStr::new("cal/tare")) && found(&table, OsString::from("cal/tare")));
    assert!(found(&table, Path::new("cal/tare")) && found(&table, PathBuf::from("cal/tare")));
    assert!(
        found(&table, Cow::Borrowed("cal/tare")) && found(&table, Box::<str>::from("cal/tare"))
    );
    assert!(
        table.lookup(2, OsStr::new("tare")).is_ok() && table.lookup(2, Path::new("up")).is_ok()
    );
    assert_eq!(OsStr::from_bytes(b"\xff").path_bytes(), b"\xff");
}
