//! Errors as others take them.

use super::LAB;
use crate::*;
use std::error::Error;

#[test]
fn errors_have_their_numbers() {
    fn is_error(_: &(dyn Error + Send + Sync + 'static)) {}
    is_error(&Errno::EXDEV);
    is_error(&"?".parse::<Flags>().unwrap_err());
    assert_eq!(Errno::from_number(1).to_string(), "unknown errno (1)");
    let broken = check(b"").unwrap_err();
    is_error(&broken);
    let refusal = resolve(b"", LAB, "cal", OpenHow::new()).unwrap_err();
    is_error(&refusal);
    assert_eq!(Refusal::from(broken), refusal);
    let refusal = lookup(b"", 0, "lab").unwrap_err();
    is_error(&refusal);
    assert_eq!(NameRefusal::from(broken), refusal);
    is_error(&Parts::default().build_into(&mut []).unwrap_err());
}

#[cfg(feature = "std")]
#[test]
fn errors_become_those_of_std() {
    use std::io::{Error, ErrorKind};
    for &errno in Errno::ALL {
        let error = Error::from(errno);
        assert_eq!(error.raw_os_error().map(|number| number as u64), Some(errno.number()));
    }
    let table = Table::new(bench_tree::IMAGE).unwrap();
    let refusal = table.resolve(LAB, "none", OpenHow::new()).unwrap_err();
    assert_eq!(Error::from(refusal).kind(), ErrorKind::NotFound);
    let refusal = table.lookup(1, "none").unwrap_err();
    assert_eq!(Error::from(refusal).kind(), ErrorKind::NotFound);
    let refusal = table.lookup(12, "lab").unwrap_err();
    assert_eq!(Error::from(refusal).raw_os_error(), Some(9));
    assert_eq!(Error::from(check(b"").unwrap_err()).raw_os_error(), Some(117));
    let parts = table.parts();
    let short = parts.build_into(&mut []).unwrap_err();
    assert_eq!(Error::from(short).raw_os_error(), Some(34));
    let broken = Parts { text: b"", ..parts }.build().unwrap_err();
    assert_eq!(Error::from(broken).raw_os_error(), Some(117));
    assert_eq!(Error::from(BuildError::Other(Errno::EBADF)).raw_os_error(), Some(9));
    let odd = Error::from(Errno::Other(1 << 40));
    assert_eq!(
        (odd.raw_os_error(), odd.to_string().as_str()),
        (None, "unknown errno (1099511627776)")
    );
}
