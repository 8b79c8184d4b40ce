//! A case, and its comparison.

use crate::build::{Build, Told as BuildTold};
use crate::builder::Parts;
use crate::halving::Looked;
use crate::lookup::Lookup;
use crate::manifest::{self, Told as ManifestTold};
use crate::pair::{Pair, Told as PairTold};
use crate::resolver::{
    self, accept, handle_is_checked, resolve_field, resolve_with_events, second_answer, walked_in,
    Answer, Event, Met, Place, Restrictions, Table, BENEATH, IN_ROOT, NO_MAGICLINKS, NO_SYMLINKS,
    NO_XDEV,
};
use crate::sequence::{Sequence, Told};
use crate::subject::{Handle, Lent, Subject};
use crate::tried::Tried;
use data::dice::Dice;
use data::worked::{call_arguments, check_arguments, sequence_arguments};
use std::borrow::Cow;
use std::fmt;

/// The restrictions that demand 3 (RULES 12.3) may add, as bits of resolve;
/// BENEATH only with IN_ROOT off.
pub const ADDABLE: u64 = NO_XDEV | NO_MAGICLINKS | NO_SYMLINKS | BENEATH;

#[derive(Clone, PartialEq, Eq)]
pub struct Call {
    pub image: Vec<u8>,
    pub mount: u64,
    pub node: u64,
    pub mark: bool,
    pub path: Vec<u8>,
    pub how: Vec<u8>,
    /// What the second call of demand 3 adds: bits of resolve, and the mark.
    pub added: u64,
    pub added_mark: bool,
}

/// The bits that are really added to an open_how: none where there is no resolve field,
/// no BENEATH under IN_ROOT.
pub fn added_bits(how: &[u8], added: u64) -> u64 {
    match resolve_field(how) {
        None => 0,
        Some(resolve) if resolve & IN_ROOT != 0 => added & ADDABLE & !BENEATH,
        Some(_) => added & ADDABLE,
    }
}

/// The open_how with these bits added.
pub fn with_added(how: &[u8], added: u64) -> Vec<u8> {
    let mut second = how.to_vec();
    if let Some(byte) = second.get_mut(16) {
        // All the bits that can be added lie in the lowest byte.
        *byte |= added_bits(how, added) as u8;
    }
    second
}

impl Call {
    /// The second call of demand 3: all else alike.
    pub fn second(&self) -> Call {
        let how = with_added(&self.how, self.added);
        Call { how, mark: self.mark || self.added_mark, ..self.clone() }
    }

    pub fn lent(&self) -> Lent {
        Lent { image: self.image.clone(), path: self.path.clone(), how: self.how.clone() }
    }

    pub fn place(&self) -> Place {
        Place { mount: self.mount, node: self.node }
    }

    pub fn handle(&self) -> Handle {
        Handle { mount: self.mount, node: self.node, mark: self.mark }
    }

    /// The resolver's own answer.
    pub fn answer(&self) -> (Answer, Vec<Met>) {
        self.answer_over(accept(&self.image).ok().as_ref())
    }

    /// The same over what the image holds, if that is accepted.
    pub fn answer_over(&self, table: Option<&Table>) -> (Answer, Vec<Met>) {
        resolve_with_events(table, self.place(), self.mark, &self.path, &self.how)
    }

    /// The places that the resolver's own walk stands on.
    pub fn stood(&self) -> Vec<Place> {
        let walked = |table| walked_in(&table, self.place(), self.mark, &self.path, &self.how);
        accept(&self.image).map_or(Vec::new(), |table| walked(table).stood)
    }

    /// What demand 3 says of the second call, from the first one's events alone, and the event
    /// at which the added restrictions stop it.
    fn second_answer(&self, first: Answer, events: &[Met]) -> (Answer, Option<Event>) {
        let set = Restrictions::new(self.mark, resolve_field(&self.how).unwrap_or(0));
        let added = Restrictions::new(self.added_mark, added_bits(&self.how, self.added));
        let stopped = events.iter().find(|met| met.event.forbidden(added).is_some());
        (second_answer(first, events, set, added), stopped.map(|met| met.event))
    }

    /// The same call from some other handle, good or bad, if its own is not checked: that
    /// makes no difference then. Which one hangs on the call alone, so it can be replayed.
    pub fn with_another_handle(&self) -> Option<Call> {
        if handle_is_checked(self.mark, &self.path, resolve_field(&self.how).unwrap_or(0)) {
            return None;
        }
        let bytes = self.path.iter().chain(&self.how).map(|byte| u64::from(*byte));
        let seed = bytes.fold(self.mount ^ self.node, |sum, byte| sum.rotate_left(7) ^ byte);
        let mut dice = Dice::of(seed);
        let mut number = |limit: usize| match dice.below(3) {
            0 => dice.roll(),
            _ => dice.below(limit) as u64,
        };
        Some(Call { mount: number(3), node: number(12), ..self.clone() })
    }

    /// The subject's answer.
    pub fn ask(&self, subject: &mut dyn Subject) -> Vec<u64> {
        subject.resolve(&mut self.lent(), self.handle())
    }
}

#[derive(Clone, PartialEq, Eq)]
pub enum Case {
    Table(Vec<u8>),
    Call(Call),
    Sequence(Sequence),
    Lookup(Lookup),
    Build(Build),
    /// The manifest of a table.
    Manifest(Vec<u8>),
    Pair(Pair),
}

/// The case as the arguments of `compare replay`.
impl fmt::Display for Case {
    fn fmt(&self, f: &mut fmt::Formatter) -> fmt::Result {
        match self {
            Case::Table(image) => f.write_str(&check_arguments(image)),
            Case::Call(call) => {
                let handle = (call.mount, call.node, call.mark);
                let arguments = call_arguments(&call.image, handle, &call.path, &call.how);
                let added_mark = u8::from(call.added_mark);
                write!(f, "{arguments} --added {} --added-mark {added_mark}", call.added)
            }
            Case::Sequence(Sequence { image, steps }) => {
                f.write_str(&sequence_arguments(image, steps))
            }
            Case::Lookup(lookup) => lookup.fmt(f),
            Case::Build(build) => build.fmt(f),
            Case::Manifest(image) => write!(f, "{} --manifest", check_arguments(image)),
            Case::Pair(pair) => pair.fmt(f),
        }
    }
}

/// What a comparison found.
pub struct Difference {
    pub what: String,
    pub expected: Vec<u64>,
    pub got: Vec<u64>,
}

impl Difference {
    /// The same, found where another case was asked for.
    pub fn of(self, case: &Case) -> Difference {
        Difference { what: format!("{}, {case}", self.what), ..self }
    }
}

/// What was compared and found alike, for the statistics.
pub enum Alike {
    Check([u64; 2]),
    Call {
        first: Answer,
        events: Vec<Met>,
        second: Answer,
        /// The event at which the added restrictions stopped the walk.
        stopped: Option<Event>,
        /// None if it was refused before it came to the handle.
        tried: Option<Tried>,
    },
    Sequence {
        accepted: bool,
        told: Vec<Told>,
    },
    Lookup {
        /// The directory's.
        count: u64,
        answer: Looked,
    },
    Build(BuildTold),
    Manifest(ManifestTold),
    Pair(PairTold),
}

pub fn same(what: &str, expected: &[u64], got: Vec<u64>) -> Result<(), Difference> {
    if expected == got {
        return Ok(());
    }
    Err(Difference { what: what.into(), expected: expected.to_vec(), got })
}

fn unchanged(before: &Lent, after: &Lent) -> Result<(), Difference> {
    let changed = |part: bool| u64::from(part);
    same(
        "lent bytes were changed (image, path, open_how)",
        &[0, 0, 0],
        vec![
            changed(before.image != after.image),
            changed(before.path != after.path),
            changed(before.how != after.how),
        ],
    )
}

impl Case {
    pub fn compare(&self, subject: &mut dyn Subject) -> Result<Alike, Difference> {
        match self {
            Case::Table(image) => compare_table(subject, image),
            Case::Call(call) => compare_call(subject, call),
            Case::Sequence(sequence) => sequence.compare(subject),
            Case::Lookup(lookup) => lookup.compare(subject),
            Case::Build(build) => build.compare(subject),
            Case::Manifest(image) => manifest::compare(image, subject),
            Case::Pair(pair) => pair.compare(subject),
        }
    }

    /// The image; for a build that which its parts are as they stand, for a pair the first.
    pub fn image(&self) -> Cow<'_, [u8]> {
        match self {
            Case::Table(image) | Case::Manifest(image) => image.into(),
            Case::Call(call) | Case::Pair(Pair { call, .. }) => (&call.image).into(),
            Case::Sequence(sequence) => (&sequence.image).into(),
            Case::Lookup(lookup) => (&lookup.image).into(),
            Case::Build(build) => build.parts.as_they_are().into(),
        }
    }

    pub fn with_image(&self, image: Vec<u8>) -> Case {
        match self.clone() {
            Case::Table(_) => Case::Table(image),
            Case::Manifest(_) => Case::Manifest(image),
            Case::Call(call) => Case::Call(Call { image, ..call }),
            Case::Pair(pair) => Case::Pair(Pair { call: Call { image, ..pair.call }, ..pair }),
            Case::Sequence(sequence) => Case::Sequence(Sequence { image, ..sequence }),
            Case::Lookup(lookup) => Case::Lookup(Lookup { image, ..lookup }),
            Case::Build(build) => Case::Build(build.with_parts(Parts::of(&image))),
        }
    }
}

fn compare_table(subject: &mut dyn Subject, image: &[u8]) -> Result<Alike, Difference> {
    let expected = resolver::check(image);
    let mut lent = image.to_vec();
    let got = subject.check(&mut lent);
    same("table check", &expected, got)?;
    same("the lent image was changed", &[0], vec![u64::from(lent != image)])?;
    Ok(Alike::Check(expected))
}

fn compare_call(subject: &mut dyn Subject, call: &Call) -> Result<Alike, Difference> {
    let table = accept(&call.image).ok();
    let (first, events) = call.answer_over(table.as_ref());
    ask(subject, call, &first, "resolve")?;
    if let Some(other) = call.with_another_handle() {
        let what = format!("the same from ({},{}), which is not checked", other.mount, other.node);
        ask(subject, &other, &first, &what)?;
    }

    let again = call.second();
    let own = again.answer_over(table.as_ref()).0;
    let good = table.as_ref().filter(|table| table.handle_errno(call.place()).is_none());
    // Demand 3 speaks of good handles: the mark has a bad one checked that was not.
    let (second, stopped) = good.map_or((own, None), |_| call.second_answer(first, &events));
    ask(subject, &again, &second, "demand 3: the call with restrictions added")?;
    // The walk itself, run with the added ones, must say the same.
    let what = "demand 3 within the comparing resolver itself";
    same(what, &second.numbers(), own.numbers().to_vec())?;
    let tried = Tried::of(table.as_ref(), call.place(), call.mark, &call.path, &call.how);
    Ok(Alike::Call { first, events, second, stopped, tried })
}

/// The subject answers so, and only reads what it is lent.
pub fn ask(
    subject: &mut dyn Subject,
    call: &Call,
    expected: &Answer,
    what: &str,
) -> Result<(), Difference> {
    let lent = call.lent();
    let mut used = lent.clone();
    let got = subject.resolve(&mut used, call.handle());
    same(what, &expected.numbers(), got)?;
    unchanged(&lent, &used)
}
