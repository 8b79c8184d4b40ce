//! Whether the handle is checked, and what the checks say then.

use super::table::Raw;
use crate::faults::Fault;
use crate::resolver::{BENEATH, ENOENT, ENOTDIR, IN_ROOT};

/// What the handle is refused with, if it is.
pub fn refusal(
    raw: &Raw,
    handle: (u64, u64),
    mark: bool,
    path: &[u8],
    resolve: u64,
) -> Option<u64> {
    let is_absolute = path.first() == Some(&b'/');
    if raw.has(Fault::MarkBeforeHandle) && mark && is_absolute {
        return Some(ENOENT);
    }
    let bad = raw.bad_handle(handle)?;
    let in_range = handle.0 < raw.mounts && handle.1 < raw.nodes;
    let no_directory = bad == ENOTDIR;
    let (beneath, in_root) = (resolve & BENEATH != 0, resolve & IN_ROOT != 0);
    let needed = !is_absolute || in_root || mark;
    let is_checked = match raw.fault {
        Some(Fault::HandleAlways) => true,
        Some(Fault::RangeAlways) => needed || !in_range,
        Some(Fault::KindAlways) => needed || no_directory,
        Some(Fault::PlaceAlways) => needed || (in_range && !no_directory),
        Some(Fault::RestrictedChecked) => needed || resolve != 0,
        Some(Fault::BeneathChecked) => needed || beneath,
        Some(Fault::SlashesChecked) => needed || path.iter().all(|byte| *byte == b'/'),
        Some(Fault::InRootUnchecked) => !is_absolute || mark,
        Some(Fault::MarkedUnchecked) => !is_absolute || in_root,
        Some(Fault::MarkedKindUnchecked) => needed && !(mark && is_absolute && no_directory),
        Some(Fault::BeneathUnchecked) => needed && (mark || !beneath),
        _ => needed,
    };
    is_checked.then_some(bad)
}
