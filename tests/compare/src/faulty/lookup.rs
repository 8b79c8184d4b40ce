//! The lookup of a name in one directory, by entry numbers and byte by byte.

use super::table::Raw;
use crate::faults::Fault;
use crate::resolver::{EBADF, ENAMETOOLONG, ENOENT, ENOTDIR, EUCLEAN};
use data::fields::number_at;
use std::cmp::Ordering;

/// A lookup in four numbers; `accepted` says which of two functions.
pub fn lookup(
    fault: Option<Fault>,
    image: &[u8],
    node: u64,
    name: &mut [u8],
    accepted: bool,
) -> [u64; 4] {
    let fault = fault.filter(|fault| accepted || *fault != Fault::AcceptedUncounted);
    let answer = answer(fault, image, node, name);
    if fault == Some(Fault::TouchedName) {
        if let Some(last) = name.last_mut() {
            *last ^= 1;
        }
    }
    answer
}

fn answer(fault: Option<Fault>, image: &[u8], node: u64, name: &[u8]) -> [u64; 4] {
    let Ok(raw) = Raw::read(fault, image) else {
        let is_beyond = node >= number_at(image, 4, 2) as u64;
        let is_first = is_beyond && fault == Some(Fault::NodeBeforeTable);
        return [if is_first { EBADF } else { EUCLEAN }, 0, 0, 0];
    };
    let node = match fault {
        Some(Fault::NodeCut16) => node & 0xFFFF,
        Some(Fault::NodeCut32) => node & 0xFFFF_FFFF,
        _ => node,
    };
    let swapped = raw.has(Fault::NodeErrorsSwapped);
    let (beyond, no_directory) = if swapped { (ENOTDIR, EBADF) } else { (EBADF, ENOTDIR) };
    if node >= raw.nodes {
        return [beyond, 0, 0, 0];
    }
    if raw.kind(node) != 1 {
        return [no_directory, 0, 0, u64::from(raw.has(Fault::NoDirectoryCounted))];
    }
    if name.len() > 255 && raw.has(Fault::LongNameRefused) {
        return [ENAMETOOLONG, 0, 0, 0];
    }
    Search { raw, node, name: taken(fault, name), compared: 0 }.answer()
}

/// What is taken for the name.
fn taken(fault: Option<Fault>, name: &[u8]) -> &[u8] {
    match fault {
        Some(Fault::ZeroByteEnds) => name.split(|byte| *byte == 0).next().unwrap_or(name),
        Some(Fault::NameCut8) => &name[..name.len() & 0xFF],
        Some(Fault::NameCut255) => &name[..name.len().min(255)],
        _ => name,
    }
}

struct Search<'a> {
    raw: Raw<'a>,
    node: u64,
    name: &'a [u8],
    compared: u64,
}

impl Search<'_> {
    fn has(&self, fault: Fault) -> bool {
        self.raw.has(fault)
    }

    fn answer(mut self) -> [u64; 4] {
        if self.name == b"." && self.has(Fault::DotFound) {
            return [0, 0, self.node, 0];
        }
        let found = self.search();
        let is_silent = match self.raw.fault {
            Some(Fault::AbsentUncounted) => found.is_none(),
            Some(Fault::LongNameUncounted) => self.name.len() > 255,
            Some(Fault::EmptyNameUncounted) => self.name.is_empty(),
            Some(Fault::AcceptedUncounted) => true,
            _ => false,
        };
        let compared = if is_silent { 0 } else { self.compared };
        match found {
            Some(entry) => self.found(entry, compared),
            None => [ENOENT, 0, 0, compared],
        }
    }

    fn found(&self, entry: u64, compared: u64) -> [u64; 4] {
        let (_, _, node) = self.raw.entry(entry);
        let told = match self.raw.fault {
            Some(Fault::NodeForEntry) => node,
            Some(Fault::EntryInDirectory) => entry - self.raw.first(self.node),
            _ => entry,
        };
        let mount = self.raw.cover(0, node).filter(|_| self.has(Fault::LookupEnters));
        [0, told, mount.map_or(node, |mount| self.raw.mount(mount)[0]), compared]
    }

    /// Which entry has the name.
    fn search(&mut self) -> Option<u64> {
        let first = self.raw.first(self.node);
        let mut left = first..first + self.raw.count(self.node);
        while left.start + u64::from(self.has(Fault::LastUncompared)) < left.end {
            let middle = self.middle(left.start, left.end);
            let (offset, length, _) = self.raw.entry(middle);
            let mut order = self.order(self.raw.part(offset, length));
            self.compared += u64::from(order.is_ne() || !self.has(Fault::EqualUncounted));
            if self.has(Fault::OtherSide) {
                order = order.reverse();
            }
            match order {
                Ordering::Equal if self.has(Fault::GoesOn) && left.end - left.start > 1 => {
                    left.end = middle + 1;
                }
                Ordering::Equal => return Some(middle),
                Ordering::Less => left.end = middle,
                Ordering::Greater if self.has(Fault::MiddleKept) && middle > left.start => {
                    left.start = middle;
                }
                Ordering::Greater => left.start = middle + 1,
            }
        }
        None
    }

    /// The entry to be compared of those from `start` to before `end`.
    fn middle(&self, start: u64, end: u64) -> u64 {
        match self.raw.fault {
            Some(Fault::LaterMiddle) => (start + end) / 2,
            Some(Fault::OneByOne) => start,
            _ => start + (end - start - 1) / 2,
        }
    }

    /// How the name stands to another.
    fn order(&self, other: &[u8]) -> Ordering {
        let far = if self.has(Fault::FarBytesUnread) { 200 } else { usize::MAX };
        let mut pairs = self.name.iter().zip(other).take(far);
        if let Some((one, two)) = pairs.find(|(one, two)| one != two) {
            let is_signed = self.has(Fault::SignedLookup);
            return if is_signed { (*one as i8).cmp(&(*two as i8)) } else { one.cmp(two) };
        }
        // One begins the other.
        let by_length = self.name.len().min(far).cmp(&other.len().min(far));
        match self.raw.fault {
            Some(Fault::BeginningFound) if by_length.is_lt() => Ordering::Equal,
            Some(Fault::LongerFound) if by_length.is_gt() => Ordering::Equal,
            Some(Fault::ShorterAfter) => by_length.reverse(),
            _ => by_length,
        }
    }
}
