//! A sequence of calls on descriptors, and its comparison.

use crate::case::{added_bits, same, with_added, Alike, Difference};
use crate::descriptors::{refused, Descriptors, Held, Reply, EMFILE, SLOTS};
use crate::resolver::{self, accept, resolve_field, second_answer, Restrictions, Table};
use crate::subject::{Slots, Subject, Way};
use crate::tried::Tried;
use data::sequence::{Open, Step};

/// Descriptors started over an image, and the calls on them in order.
#[derive(Clone, PartialEq, Eq)]
pub struct Sequence {
    pub image: Vec<u8>,
    pub steps: Vec<Step>,
}

/// A call that was answered alike, for the statistics.
pub struct Told {
    pub call: &'static str,
    pub errno: u64,
    /// Whether it was the descriptors that refused it, not the resolver.
    pub is_own: bool,
    /// Whether its number was marked.
    pub marked: bool,
    /// Whether all 64 were open before it.
    pub full: bool,
    /// What an open from an open number comes to its handle with, if it does.
    pub tried: Option<Tried>,
    /// Whether an open from a closed number has an absolute path.
    pub closed: Option<bool>,
    /// Whether a second open with restrictions added was compared, and stopped by them.
    pub second: bool,
    pub stopped: bool,
}

/// Every so many calls, and at the last, outputs that are too short and an image that is
/// cut off are tried too.
const SAMPLED: usize = 8;

impl Sequence {
    pub fn compare(&self, subject: &mut dyn Subject) -> Result<Alike, Difference> {
        let table = accept(&self.image).ok();
        let accepted = table.is_some();
        let mut run = Run::start(self, table.as_ref(), subject)?;
        let mut told = Vec::with_capacity(self.steps.len());
        for (number, step) in self.steps.iter().enumerate() {
            let is_sampled = number % SAMPLED == SAMPLED - 1 || number + 1 == self.steps.len();
            let compared = run.step(step, is_sampled);
            told.push(compared.map_err(|difference| Difference {
                what: format!("call {number}, {}: {}", step.name(), difference.what),
                ..difference
            })?);
        }
        Ok(Alike::Sequence { accepted, told })
    }

    /// What the plain list of slots says to the start and to each call.
    pub fn expected(&self) -> Vec<Vec<u64>> {
        let table = accept(&self.image).ok();
        let mut descriptors = Descriptors::start(table.as_ref());
        let mut replies = vec![resolver::check(&self.image).to_vec()];
        for step in &self.steps {
            replies.push(descriptors.act(table.as_ref(), step).to_vec());
        }
        replies
    }

    /// The ways that its calls can be made in.
    pub fn ways(&self) -> &'static [Way] {
        match accept(&self.image) {
            Ok(_) => &[Way::CHECKED, Way::ACCEPTED],
            Err(_) => &[Way::CHECKED],
        }
    }

    /// What the subject says to them, and whether it left what it was lent as it was.
    pub fn got(&self, subject: &mut dyn Subject, way: Way) -> (Vec<Vec<u64>>, bool) {
        let (replies, _, untouched) = self.got_with_slots(subject, way);
        (replies, untouched)
    }

    /// The same with the slots that it leaves.
    pub fn got_with_slots(
        &self,
        subject: &mut dyn Subject,
        way: Way,
    ) -> (Vec<Vec<u64>>, Slots, bool) {
        let Sequence { mut image, mut steps } = self.clone();
        let mut slots = UNWRITTEN;
        let mut replies = Vec::with_capacity(1 + steps.len());
        if way.accepted {
            // It says nothing, being told what the other says.
            subject.start_accepted(&mut image, &mut slots);
            replies.push(vec![0, 0]);
        } else {
            replies.push(subject.start(&mut image, &mut slots, 2));
        }
        for step in &mut steps {
            replies.push(subject.act(&mut image, &mut slots, step, way));
        }
        (replies, slots, *self == Sequence { image, steps })
    }
}

/// Both sides' descriptors at some point of a sequence.
#[derive(Clone)]
struct State {
    expected: Descriptors,
    slots: Slots,
}

/// Both sides in the midst of a sequence.
struct Run<'a> {
    subject: &'a mut dyn Subject,
    sequence: &'a Sequence,
    /// What the image holds, if it is accepted.
    table: Option<&'a Table<'a>>,
    /// The image as it is lent, which must stay as it is.
    image: Vec<u8>,
    now: State,
}

/// What stands in slots that nothing was written to.
const UNWRITTEN: Slots = [0x5A5A_C3C3_3C3C_A5A5; SLOTS];

impl<'a> Run<'a> {
    /// Starts the descriptors, in every way that there is.
    fn start(
        sequence: &'a Sequence,
        table: Option<&'a Table<'a>>,
        subject: &'a mut dyn Subject,
    ) -> Result<Run<'a>, Difference> {
        let mut image = sequence.image.clone();
        let mut slots = UNWRITTEN;
        let got = subject.start(&mut image, &mut slots, 1);
        same("a start with too short an output", &[], got)?;
        same_slots("after a start with too short an output", &UNWRITTEN, &slots)?;
        let got = subject.start(&mut image, &mut slots, 2);
        same("start", &resolver::check(&sequence.image), got)?;
        if table.is_some() {
            let mut accepted = UNWRITTEN;
            subject.start_accepted(&mut image, &mut accepted);
            same_slots("after start and start_accepted", &slots, &accepted)?;
        }
        let now = State { expected: Descriptors::start(table), slots };
        let run = Run { subject, sequence, table, image, now };
        run.closed_ones_are_zero()?;
        run.image_is_unchanged()?;
        Ok(run)
    }

    fn closed_ones_are_zero(&self) -> Result<(), Difference> {
        let (mut expected, mut got) = ([0; SLOTS], [0; SLOTS]);
        for number in 0..SLOTS {
            expected[number] = u64::from(self.now.expected.held(number as u64).is_some());
            got[number] = u64::from(self.now.slots[number] != 0);
        }
        same_slots("that is 0 if it is closed, here 1 if it is open", &expected, &got)
    }

    fn image_is_unchanged(&self) -> Result<(), Difference> {
        let changed = u64::from(self.image != self.sequence.image);
        same("the lent image was changed", &[0], vec![changed])
    }

    /// Asks the subject, which must answer so and leave what it is lent as it was.
    fn ask(
        &mut self,
        what: &str,
        expected: &[u64],
        slots: &mut Slots,
        step: &Step,
        way: Way,
    ) -> Result<(), Difference> {
        let mut lent = step.clone();
        let got = self.subject.act(&mut self.image, slots, &mut lent, way);
        same(what, expected, got)?;
        self.image_is_unchanged()?;
        same("path or open_how was changed", &[0], vec![u64::from(lent != *step)])
    }

    fn step(&mut self, step: &Step, is_sampled: bool) -> Result<Told, Difference> {
        let before = self.now.clone();
        let reply = self.both_ways(step)?;
        let errno = reply[0];
        if is_sampled {
            self.short_output(&before, step)?;
            self.cut_image(&before, step)?;
        }
        let (tried, closed) = self.tried(&before.expected, step);
        if let (Step::Open(open), Some(Tried { is_checked: false, .. })) = (step, tried) {
            self.through_another_number(&before, open, &reply)?;
        }
        let (second, stopped) = match step {
            Step::Open(open) if open.added != 0 || open.added_mark => {
                (true, self.second(&before, open)?)
            }
            _ => (false, false),
        };
        let is_own = match step {
            Step::Open(open) => errno == EMFILE || before.expected.admit(open).is_err(),
            _ => errno != 0,
        };
        let (call, full) = (step.name(), before.expected.is_full());
        let marked = before.expected.is_marked(step.number());
        Ok(Told { call, errno, is_own, marked, full, tried, closed, second, stopped })
    }

    /// An open whose handle is not checked, from another number that is open and not marked:
    /// that makes no difference.
    fn through_another_number(
        &mut self,
        before: &State,
        open: &Open,
        reply: &Reply,
    ) -> Result<(), Difference> {
        let mut others = before.expected.open_ones();
        others.retain(|number| *number != open.number && !before.expected.is_marked(*number));
        let Some(number) = others.pop() else { return Ok(()) };
        let what = format!("the same from {number}, whose handle is not checked");
        let other = Step::Open(Open { number, ..open.clone() });
        self.ask(&what, reply, &mut before.slots.clone(), &other, Way::CHECKED)
    }

    /// What an open comes to its handle with; from a closed number, whether its path is absolute.
    fn tried(&self, before: &Descriptors, step: &Step) -> (Option<Tried>, Option<bool>) {
        match step {
            Step::Open(open) => match (before.admit(open), before.held(open.number)) {
                (Ok(Held { place, mark }), _) => {
                    (Tried::of(self.table, place, mark, &open.path, &open.how), None)
                }
                (Err(_), None) => (None, Some(open.path.starts_with(b"/"))),
                _ => (None, None),
            },
            _ => (None, None),
        }
    }

    /// The call itself; an open over an accepted image without the check too.
    fn both_ways(&mut self, step: &Step) -> Result<Reply, Difference> {
        let State { mut expected, slots: before } = self.now.clone();
        let marked = expected.is_marked(step.number());
        let reply = expected.act(self.table, step);
        let mut slots = before;
        self.ask("the reply", &reply, &mut slots, step, Way::CHECKED)?;
        if self.has_accepted(step) {
            let mut accepted = before;
            self.ask("the reply of open_accepted", &reply, &mut accepted, step, Way::ACCEPTED)?;
            same_slots("after open and open_accepted", &slots, &accepted)?;
        }
        let mut unchanged = before;
        if let Some(number) = may_change(step, &reply, marked) {
            unchanged[number] = slots[number];
        }
        same_slots("that must stay as it was", &unchanged, &slots)?;
        self.now = State { expected, slots };
        self.closed_ones_are_zero()?;
        Ok(reply)
    }

    /// Whether there is a function for the call that wants an accepted image, and it is.
    fn has_accepted(&self, step: &Step) -> bool {
        self.table.is_some() && matches!(step, Step::Open(_))
    }

    /// An output that is too short by one gets nothing, and no slot changes.
    fn short_output(&mut self, before: &State, step: &Step) -> Result<(), Difference> {
        let ways = 1 + usize::from(self.has_accepted(step));
        for way in [Way::CHECKED, Way::ACCEPTED].into_iter().take(ways) {
            let mut slots = before.slots;
            let short = Way { room: way.room - 1, ..way };
            self.ask("too short an output", &[], &mut slots, step, short)?;
            same_slots("after too short an output", &before.slots, &slots)?;
        }
        Ok(())
    }

    /// The call over the image without its last byte, which no rule accepts. An open is
    /// EUCLEAN, unless the descriptors themselves refuse it before; set_mark does not check
    /// the image, and a node's bytes are still there.
    fn cut_image(&mut self, before: &State, step: &Step) -> Result<(), Difference> {
        let (table, after) = match step {
            Step::Open(_) => (None, before.slots),
            Step::SetMark(_) => (self.table, self.now.slots),
            Step::Dup(_) | Step::Close(_) => return Ok(()),
        };
        let mut cut = self.sequence.image.clone();
        cut.pop();
        let mut slots = before.slots;
        let reply = before.expected.clone().act(table, step);
        let got = self.subject.act(&mut cut, &mut slots, &mut step.clone(), Way::CHECKED);
        same("the reply over an image cut off", &reply, got)?;
        same_slots("after an image cut off", &after, &slots)
    }

    /// Demand 3 on replies: the open once more, on a copy of the descriptors, with
    /// restrictions added; whether these stopped it. "Demands 2 and 3 read the handle held
    /// in the slot at that call."
    fn second(&mut self, before: &State, open: &Open) -> Result<bool, Difference> {
        let State { expected: mut marked, mut slots } = before.clone();
        if open.added_mark {
            let set_mark = Step::SetMark(open.number);
            let reply = marked.act(self.table, &set_mark);
            self.ask("demand 3: the mark set", &reply, &mut slots, &set_mark, Way::CHECKED)?;
        }
        let how = with_added(&open.how, open.added);
        let again = Step::Open(Open { how, ..open.clone() });
        let own = marked.act(self.table, &again);
        let (second, stopped) = match self.is_good(&before.expected, open.number) {
            true => self.second_reply(&before.expected, open),
            // Demand 3 speaks of good handles: the mark has a bad one checked that was not.
            false => (own, false),
        };
        let what = "demand 3: the open with restrictions added";
        self.ask(what, &second, &mut slots, &again, Way::CHECKED)?;
        // The walk itself, run with the added ones, must say the same.
        same("demand 3 within the comparing resolver itself", &second, own.to_vec())?;
        Ok(stopped)
    }

    /// Whether a number holds a good handle.
    fn is_good(&self, descriptors: &Descriptors, number: u64) -> bool {
        let held = descriptors.held(number).zip(self.table);
        held.is_some_and(|(held, table)| table.handle_errno(held.place).is_none())
    }

    /// The second reply, worked out from the first walk's events alone, and whether one of
    /// them is forbidden by what is added.
    fn second_reply(&self, before: &Descriptors, open: &Open) -> (Reply, bool) {
        let (first, events) = match before.resolve(self.table, open) {
            Ok(walked) => walked,
            Err(errno) => return (refused(errno), false),
        };
        let resolve = resolve_field(&open.how).unwrap_or(0);
        let set = Restrictions::new(before.is_marked(open.number), resolve);
        let added = Restrictions::new(open.added_mark, added_bits(&open.how, open.added));
        let second = second_answer(first, &events, set, added);
        let stopped = events.iter().any(|met| met.event.forbidden(added).is_some());
        // A mark set on the number takes none, so the same one is given.
        (before.clone().take(second, open.mark), stopped)
    }
}

/// The slots are these. Of a difference the lowest slot is told, by its number.
pub fn same_slots(which: &str, expected: &Slots, got: &Slots) -> Result<(), Difference> {
    let mut slots = (0..).zip(expected.iter().zip(got));
    match slots.find(|(_, (expected, got))| expected != got) {
        None => Ok(()),
        Some((number, (expected, got))) => {
            same(&format!("slot {number}, {which}"), &[*expected], vec![*got])
        }
    }
}

/// The one slot that a call may change: none if it is refused, or sets a mark that is set.
fn may_change(step: &Step, reply: &Reply, marked: bool) -> Option<usize> {
    let [0, .., given] = *reply else { return None };
    let number = match step {
        Step::Open(_) | Step::Dup(_) => given,
        Step::SetMark(_) if marked => return None,
        Step::Close(number) | Step::SetMark(number) => *number,
    };
    usize::try_from(number).ok()
}

#[cfg(test)]
mod tests;
