//! Places as they are printed and given: `MOUNT:NODE`.

use std::ffi::OsStr;
use ventolaire::Place;

pub fn text(place: Place) -> String {
    format!("{}:{}", place.mount, place.node)
}

/// The place of `0:3`, or of `(0,3)`, as the rules write it.
pub fn read(given: &OsStr) -> Option<Place> {
    let given = given.to_str()?;
    let in_brackets = given.strip_prefix('(').and_then(|given| given.strip_suffix(')'));
    let (mount, node) = match in_brackets {
        Some(inside) => inside.split_once(',')?,
        None => given.split_once(':')?,
    };
    Some(Place { mount: number(mount)?, node: number(node)? })
}

/// A number of digits alone.
fn number(digits: &str) -> Option<u64> {
    let is_number = digits.bytes().all(|byte| byte.is_ascii_digit());
    is_number.then(|| digits.parse().ok()).flatten()
}
