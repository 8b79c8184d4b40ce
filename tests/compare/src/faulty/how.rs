//! The open_how check.

use crate::faults::Fault;
use crate::resolver::{BENEATH, E2BIG, EINVAL, IN_ROOT, KNOWN_FLAGS, KNOWN_RESOLVE};

/// Flags and resolve, or errno and detail.
pub fn fields(fault: Option<Fault>, how: &[u8]) -> Result<(u64, u64), (u64, u64)> {
    let has = |fault_named| fault == Some(fault_named);
    if how.len() < 24 {
        return Err((EINVAL, 255));
    }
    let number = |part: &[u8]| part.iter().rev().fold(0, |n, b| n << 8 | u64::from(*b));
    let (flags, mode) = (number(&how[0..8]), number(&how[8..10]));
    let (padding, resolve) = (number(&how[10..16]), number(&how[16..24]));
    let tail = how.iter().skip(24).any(|byte| *byte != 0);
    let longest = 4096 - usize::from(has(Fault::HowBound));
    if how.len() > longest || (tail && !has(Fault::TailIgnored)) {
        return Err((E2BIG, 255));
    }
    let unknown = |field: u64, known: u64, ignored: bool| {
        let seen = match ignored {
            true => 0,
            false if has(Fault::UnknownLow32) => field & !known & 0xFFFF_FFFF,
            false => field & !known,
        };
        let bit = match has(Fault::HighestUnknownBit) {
            true => 63 - u64::from(seen.leading_zeros()).min(63),
            false => u64::from(seen.trailing_zeros()),
        };
        (seen != 0).then_some(bit)
    };
    if let Some(bit) = unknown(flags, KNOWN_FLAGS, has(Fault::UnknownFlagIgnored)) {
        return Err((EINVAL, bit));
    }
    if let Some(bit) = unknown(resolve, KNOWN_RESOLVE, has(Fault::UnknownResolveIgnored)) {
        return Err((EINVAL, 64 + bit));
    }
    let mode = mode != 0 || (padding != 0 && !has(Fault::PaddingIgnored));
    if (both_scopes(resolve) && !has(Fault::ScopesLate)) || mode {
        return Err((EINVAL, 255));
    }
    Ok((flags, resolve))
}

pub fn both_scopes(resolve: u64) -> bool {
    resolve & (BENEATH | IN_ROOT) == BENEATH | IN_ROOT
}
