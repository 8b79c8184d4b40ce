//! Descriptors: a plain list of 64 slots over the resolver, written from the rules
//! alone (RULES 17), to be compared with the library.

use crate::resolver::{
    flags_field, resolve_with_events, Answer, Met, Place, Table, EBADF, EINVAL, NO_DETAIL,
    O_DIRECTORY,
};
use data::sequence::{Open, Step};

pub const EMFILE: u64 = 24;
pub const ENOTTY: u64 = 25;

pub const SLOTS: usize = 64;

/// What stands in the slot of a descriptor that is open.
#[derive(Clone, Copy, Debug, PartialEq, Eq)]
pub struct Held {
    pub place: Place,
    pub mark: bool,
}

/// errno (0: done), detail, mount, node, components, links, descriptor given.
pub type Reply = [u64; 7];

/// A refusal of the descriptors' own, which carries "detail 255 and counts 0, as before a
/// walk".
pub fn refused(errno: u64) -> Reply {
    [errno, NO_DETAIL, 0, 0, 0, 0, 0]
}

/// A call that is done and gives this number; 0 if it gives none.
fn done(given: u64) -> Reply {
    [0, NO_DETAIL, 0, 0, 0, 0, given]
}

#[derive(Clone, Debug, PartialEq, Eq)]
pub struct Descriptors {
    slots: [Option<Held>; SLOTS],
}

impl Descriptors {
    /// "Only descriptor 0 starts open, unmarked, on mount 0's root (none, if the table is
    /// refused)."
    pub fn start(table: Option<&Table>) -> Descriptors {
        let mut slots = [None; SLOTS];
        slots[0] = table.map(|table| Held { place: table.top(), mark: false });
        Descriptors { slots }
    }

    /// None for a closed number or one above 63.
    pub fn held(&self, number: u64) -> Option<Held> {
        *self.slots.get(usize::try_from(number).ok()?)?
    }

    pub fn is_marked(&self, number: u64) -> bool {
        self.held(number).is_some_and(|held| held.mark)
    }

    /// The numbers that are open.
    pub fn open_ones(&self) -> Vec<u64> {
        (0..SLOTS as u64).filter(|number| self.held(*number).is_some()).collect()
    }

    pub fn is_full(&self) -> bool {
        self.slots.iter().all(Option::is_some)
    }

    /// One call; `table` is what its image holds, if that is accepted.
    pub fn act(&mut self, table: Option<&Table>, step: &Step) -> Reply {
        let reply = match step {
            Step::Open(open) => self.open(table, open),
            Step::Dup(number) => self.duplicate(*number),
            Step::Close(number) => self.close(*number),
            Step::SetMark(number) => self.set_mark(table, *number),
        };
        reply.unwrap_or_else(refused)
    }

    fn open(&mut self, table: Option<&Table>, open: &Open) -> Result<Reply, u64> {
        let (answer, _) = self.resolve(table, open)?;
        Ok(self.take(answer, open.mark))
    }

    /// "EBADF for a closed number or one above 63, whatever the path; the mark's EINVAL"; if
    /// neither, what is opened through.
    pub fn admit(&self, open: &Open) -> Result<Held, u64> {
        let held = self.held(open.number).ok_or(EBADF)?;
        let flags = flags_field(&open.how);
        if open.mark && flags.is_some_and(|flags| flags & O_DIRECTORY == 0) {
            return Err(EINVAL);
        }
        Ok(held)
    }

    /// The resolver's own answer, with the events of its walk, if it comes to that.
    pub fn resolve(&self, table: Option<&Table>, open: &Open) -> Result<(Answer, Vec<Met>), u64> {
        let Held { place, mark } = self.admit(open)?;
        Ok(resolve_with_events(table, place, mark, &open.path, &open.how))
    }

    /// An open's reply to the resolver's answer: the place found gets a number, unmarked
    /// unless the mark is asked for; "last EMFILE".
    pub fn take(&mut self, answer: Answer, mark: bool) -> Reply {
        let given = match answer {
            Answer::Found { place, .. } => self.give(Held { place, mark }),
            Answer::Refused { .. } => Ok(0),
        };
        let [errno, detail, mount, node, components, links] = answer.numbers();
        given.map_or_else(refused, |given| [errno, detail, mount, node, components, links, given])
    }

    /// "either gives the lowest free number"
    fn give(&mut self, held: Held) -> Result<u64, u64> {
        let free = self.slots.iter().position(Option::is_none).ok_or(EMFILE)?;
        self.slots[free] = Some(held);
        Ok(free as u64)
    }

    /// "Duplicates keep the mark but share none set later": the slot is copied.
    fn duplicate(&mut self, number: u64) -> Result<Reply, u64> {
        let held = self.held(number).ok_or(EBADF)?;
        self.give(held).map(done)
    }

    fn slot(&mut self, number: u64) -> Result<&mut Option<Held>, u64> {
        let slot = usize::try_from(number).ok().and_then(|number| self.slots.get_mut(number));
        slot.filter(|slot| slot.is_some()).ok_or(EBADF)
    }

    fn close(&mut self, number: u64) -> Result<Reply, u64> {
        *self.slot(number)? = None;
        Ok(done(0))
    }

    /// "setting it on a non-directory is ENOTTY (25)"
    fn set_mark(&mut self, table: Option<&Table>, number: u64) -> Result<Reply, u64> {
        let is_directory = |node| table.is_some_and(|table| table.is_directory(node));
        let held = self.slot(number)?.as_mut().filter(|held| is_directory(held.place.node));
        held.ok_or(ENOTTY)?.mark = true;
        Ok(done(0))
    }
}

#[cfg(test)]
mod tests;
