//! The calls of a pair on descriptors (RULES 20.7, 20.8).

use super::{confines, way_to, Pair, Side, NAMES};
use crate::case::{same, Difference};
use crate::descriptors::{Descriptors, Held};
use crate::resolver::{Place, Table};
use crate::sequence::{same_slots, Sequence};
use crate::subject::{Subject, Way};
use data::how;
use data::sequence::{Open, Step};

/// The number that holds the handle at first.
pub const HANDLE: u64 = 1;

/// What became of a script.
#[derive(Clone, Copy, PartialEq, Eq)]
pub enum Ran {
    /// There is none.
    NotWritten,
    /// The handle cannot be opened in one of the tables.
    NoWay,
    /// One of its opens is not confined.
    NotConfined,
    /// So many of its calls were done, and so many refused.
    Whole([u64; 2]),
}

/// Replies to the start and to the first steps, whose counts may differ.
const FIRST: usize = 3;

/// What comes before the script's own calls: the handle opened, and mount 0's root closed. None if
/// no path leads to the handle.
fn first_steps(table: &Table, handle: Place) -> Option<[Step; FIRST - 1]> {
    let path = way_to(table, handle)?;
    let open = Open { path, how: how(0, 0), ..Open::default() };
    Some([Step::Open(open), Step::Close(0)])
}

/// The descriptors when the script's own calls begin, if the handle can be opened.
pub fn opened(table: &Table, handle: Place) -> Option<Descriptors> {
    let mut descriptors = Descriptors::start(Some(table));
    for step in first_steps(table, handle)? {
        descriptors.act(Some(table), &step);
    }
    let wanted = Held { place: handle, mark: false };
    let is_opened = descriptors.held(HANDLE) == Some(wanted);
    Some(descriptors).filter(|_| is_opened)
}

/// The script over an image, if it can begin.
fn sequence(pair: &Pair, image: &[u8], table: &Table) -> Result<Sequence, Ran> {
    let handle = pair.call.place();
    let mut descriptors = opened(table, handle).ok_or(Ran::NoWay)?;
    let is_confined = pair.steps.iter().all(|step| {
        let is_marked = descriptors.is_marked(step.number());
        descriptors.act(Some(table), step);
        !matches!(step, Step::Open(open) if !confines(is_marked, &open.how))
    });
    let first = first_steps(table, handle).filter(|_| is_confined).ok_or(Ran::NotConfined)?;
    let steps = first.into_iter().chain(pair.steps.iter().cloned()).collect();
    Ok(Sequence { image: image.to_vec(), steps })
}

/// The script over both tables, or why there is none.
pub fn sequences(pair: &Pair, [first, second]: [&Table; 2]) -> Result<[Sequence; 2], Ran> {
    if pair.steps.is_empty() {
        return Err(Ran::NotWritten);
    }
    Ok([sequence(pair, &pair.call.image, first)?, sequence(pair, &pair.other, second)?])
}

/// The subject replies as the plain list of slots does, over both tables.
pub fn answers(pair: &Pair, subject: &mut dyn Subject) -> Result<(), Difference> {
    for (name, sequence) in NAMES.iter().zip(pair.scripts().iter().flatten()) {
        let (got, untouched) = sequence.got(subject, Way::CHECKED);
        for (number, (expected, got)) in sequence.expected().iter().zip(got).enumerate() {
            same(&format!("{name}: script, reply {number}"), expected, got)?;
        }
        let what = format!("{name}: script, lent bytes were changed");
        same(&what, &[0], vec![u64::from(!untouched)])?;
    }
    Ok(())
}

/// What is opened is reachable; and replies and slots are the same if the part is in common.
pub fn claims(
    pair: &Pair,
    sides: &[Side; 2],
    subject: &mut dyn Subject,
) -> Result<Ran, Difference> {
    let both = match sequences(pair, [sides[0].table, sides[1].table]) {
        Ok(both) => both,
        Err(ran) => return Ok(ran),
    };
    let mut counts = [0; 2];
    for way in [Way::CHECKED, Way::ACCEPTED] {
        let [(one, slots, _), (two, others, _)] =
            [&both[0], &both[1]].map(|sequence| sequence.got_with_slots(subject, way));
        for (side, replies) in sides.iter().zip([&one, &two]) {
            opened_inside(pair, side, replies)?;
        }
        if pair.is_common {
            same_replies(&one, two)?;
            same_slots("claim 2: script, over the second table", &slots, &others)?;
        }
        let refused = one.iter().skip(FIRST).filter(|reply| reply.first() != Some(&0)).count();
        counts = [pair.steps.len() - refused, refused].map(|count| count as u64);
    }
    Ok(Ran::Whole(counts))
}

fn same_replies(first: &[Vec<u64>], second: Vec<Vec<u64>>) -> Result<(), Difference> {
    for (number, (one, two)) in first.iter().zip(second).enumerate().skip(FIRST) {
        same(&format!("claim 2: script, reply {number} over the second table"), one, two)?;
    }
    Ok(())
}

/// Every place that the script opens is reachable, by the replies.
fn opened_inside(pair: &Pair, side: &Side, replies: &[Vec<u64>]) -> Result<(), Difference> {
    for (step, reply) in pair.steps.iter().zip(replies.iter().skip(FIRST)) {
        if let (Step::Open(_), [0, _, mount, node, ..]) = (step, &reply[..]) {
            side.inside("script, a place opened", Place { mount: *mount, node: *node })?;
        }
    }
    Ok(())
}
