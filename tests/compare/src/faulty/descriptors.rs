//! Descriptors, each packed in a number.

use super::table::Raw;
use crate::faults::Fault;
use crate::resolver::{EBADF, EINVAL, EUCLEAN, O_DIRECTORY};
use data::fields::{get, number_at};
use data::sequence::{Open, Step};

const EMFILE: u64 = 24;
const ENOTTY: u64 = 25;

/// The bits of a number: that it is open, and its mark; from the others on mount, node,
/// and the group that it shares with its duplicates.
const OPEN: u64 = 1;
const MARK: u64 = 2;
const MOUNT: u32 = 8;
const NODE: u32 = 24;
const GROUP: u32 = 40;

fn packed((mount, node): (u64, u64), group: u64, mark: bool) -> u64 {
    let mark = if mark { MARK } else { 0 };
    OPEN | mark | mount << MOUNT | node << NODE | group << GROUP
}

fn place(slot: u64) -> (u64, u64) {
    (slot >> MOUNT & 0xFFFF, slot >> NODE & 0xFFFF)
}

pub fn start(fault: Option<Fault>, image: &[u8]) -> [u64; 64] {
    let mut slots = [0; 64];
    if let Ok(raw) = Raw::read(fault, image) {
        slots[0] = packed((0, raw.mount(0)[0]), 0, raw.has(Fault::StartMarked));
    }
    slots
}

/// One call on descriptors, in seven numbers; `accepted` says which of two functions.
pub fn act(
    fault: Option<Fault>,
    image: &[u8],
    slots: &mut [u64; 64],
    step: &mut Step,
    accepted: bool,
) -> [u64; 7] {
    let fault = fault.filter(|fault| accepted || *fault != Fault::AcceptedUnmarked);
    let mut descriptors = Descriptors { fault, image, slots };
    let reply = match step {
        Step::Open(open) => descriptors.open(open),
        Step::Dup(number) => descriptors.duplicate(*number),
        Step::Close(number) => descriptors.close(*number),
        Step::SetMark(number) => descriptors.set_mark(*number),
    };
    reply.unwrap_or_else(|errno| [errno, 255, 0, 0, 0, 0, 0])
}

struct Descriptors<'a> {
    fault: Option<Fault>,
    image: &'a [u8],
    slots: &'a mut [u64; 64],
}

impl Descriptors<'_> {
    fn has(&self, fault: Fault) -> bool {
        self.fault == Some(fault)
    }

    /// The index of an open number.
    fn index(&self, number: u64) -> Result<usize, u64> {
        let number = match self.fault {
            Some(Fault::NumberModulo) => number % 64,
            Some(Fault::NumberCut) => number & 0xFFFF_FFFF,
            _ => number,
        };
        let index = number.min(64) as usize;
        match self.slots.get(index) {
            Some(slot) if slot & OPEN != 0 => Ok(index),
            _ => Err(EBADF),
        }
    }

    fn free(&self) -> Result<usize, u64> {
        let mut free = (0..64).filter(|index| self.slots[*index] == 0);
        if self.has(Fault::LastKept) && free.clone().count() == 1 {
            return Err(EMFILE);
        }
        let index = if self.has(Fault::HighestFree) { free.next_back() } else { free.next() };
        index.ok_or(EMFILE)
    }

    fn give(&mut self, slot: u64) -> Result<u64, u64> {
        let index = self.free()?;
        self.slots[index] = slot;
        Ok(index as u64)
    }

    fn open(&mut self, open: &mut Open) -> Result<[u64; 7], u64> {
        if self.has(Fault::RefusedFirst) && super::check(self.fault, self.image) != [0, 0] {
            return Err(EUCLEAN);
        }
        let is_whole = open.how.len() >= 24;
        let flags = get(&open.how, 0, 8).filter(|_| is_whole).unwrap_or(O_DIRECTORY);
        let is_unfit = open.mark && flags & O_DIRECTORY == 0;
        if is_unfit && self.has(Fault::MarkBeforeNumber) {
            return Err(EINVAL);
        }
        let index = self.through(open)?;
        if is_unfit && !self.has(Fault::MarkAfterWalk) {
            return Err(EINVAL);
        }
        if self.has(Fault::FullFirst) {
            self.free()?;
        }
        let answer = self.resolve(index, open);
        let [errno, detail, mount, node, components, links] = answer;
        if errno != 0 {
            if self.has(Fault::RefusalCloses) {
                self.slots[index] = 0;
            }
            return Ok([errno, detail, mount, node, components, links, 0]);
        }
        if is_unfit {
            return Err(EINVAL);
        }
        self.found(index, open.mark, answer)
    }

    /// The index of the number that is opened through.
    fn through(&self, open: &Open) -> Result<usize, u64> {
        let unneeded = self.has(Fault::ClosedUnneeded) && open.path.starts_with(b"/");
        self.index(open.number).or_else(|errno| if unneeded { Ok(63) } else { Err(errno) })
    }

    fn resolve(&self, index: usize, open: &mut Open) -> [u64; 6] {
        let slot = self.slots[index];
        let mark = slot & MARK != 0 && !self.has(Fault::MarkUnread);
        let resolve =
            |path| super::resolve(self.fault, self.image, place(slot), mark, path, &open.how);
        let answer = resolve(&mut open.path);
        if self.has(Fault::AskedChecked) && open.mark && answer[0] == 0 {
            // Any relative path has the handle checked.
            let checked = resolve(&mut [b'.']);
            return if checked[0] == 0 { answer } else { checked };
        }
        answer
    }

    /// Gives the place that was found a number.
    fn found(&mut self, index: usize, asked: bool, answer: [u64; 6]) -> Result<[u64; 7], u64> {
        let [errno, detail, mount, node, components, links] = answer;
        let through_marked = self.slots[index] & MARK != 0;
        let mark = (asked && !self.has(Fault::AcceptedUnmarked))
            || (through_marked && self.has(Fault::MarkInherited));
        let group = 1 + self.slots.iter().map(|slot| slot >> GROUP).max().unwrap_or(0);
        match self.give(packed((mount, node), group, mark)) {
            Err(EMFILE) if self.has(Fault::FullCounts) => {
                Ok([EMFILE, 255, 0, 0, components, links, 0])
            }
            given => given.map(|given| [errno, detail, mount, node, components, links, given]),
        }
    }

    fn duplicate(&mut self, number: u64) -> Result<[u64; 7], u64> {
        let kept = if self.has(Fault::MarkDropped) { !MARK } else { u64::MAX };
        let slot = self.slots[self.index(number)?] & kept;
        Ok([0, 255, 0, 0, 0, 0, self.give(slot)?])
    }

    fn close(&mut self, number: u64) -> Result<[u64; 7], u64> {
        let index = self.index(number)?;
        self.slots[index] = 0;
        Ok([0, 255, 0, 0, 0, 0, 0])
    }

    fn set_mark(&mut self, number: u64) -> Result<[u64; 7], u64> {
        let index = self.index(number)?;
        let marked = self.slots[index];
        let (_, node) = place(marked);
        let is_directory = number_at(self.image, 20 + 12 * node as usize, 2) == 1;
        if !is_directory && !self.has(Fault::MarkAnything) {
            return Err(ENOTTY);
        }
        if self.has(Fault::MarkShared) {
            let is_shared = |slot: &&mut u64| **slot != 0 && **slot >> GROUP == marked >> GROUP;
            self.slots.iter_mut().filter(is_shared).for_each(|slot| *slot |= MARK);
        }
        self.slots[index] |= MARK;
        Ok([0, 255, 0, 0, 0, 0, 0])
    }
}
