//! A pair: one call over two tables, and a script on descriptors. If the call is confined, the walk
//! stays within the handle's part; and if the tables have that in common, what lies outside
//! makes no difference (RULES 20).

mod part;
mod script;
#[cfg(test)]
mod tests;
mod way;

pub use script::{opened, Ran, HANDLE};
pub use way::way_to;

use crate::case::{ask, same, Alike, Call, Difference};
use crate::common::{apart, in_common, Apart};
use crate::reach::reach;
use crate::resolver::{accept, resolve_field, walked_in, Place, Table, Walked, BENEATH, IN_ROOT};
use crate::sequence::Sequence;
use crate::subject::Subject;
use data::sequence::{written, Step};
use data::worked::call_arguments;
use part::Part;
use std::collections::BTreeSet;
use std::fmt;

#[derive(Clone, PartialEq, Eq)]
pub struct Pair {
    /// Over the first table; it adds nothing.
    pub call: Call,
    /// The image of the second table.
    pub other: Vec<u8>,
    /// Calls on descriptors of which only [`HANDLE`] is open at first, holding the handle.
    pub steps: Vec<Step>,
    /// Whether the second table was made to have the handle's part in common.
    pub is_common: bool,
}

/// The pair as the arguments of `compare replay`.
impl fmt::Display for Pair {
    fn fmt(&self, f: &mut fmt::Formatter) -> fmt::Result {
        let Call { image, mount, node, mark, path, how, .. } = &self.call;
        let arguments = call_arguments(image, (*mount, *node, *mark), path, how);
        write!(f, "{arguments} --other {}", data::hex(&self.other))?;
        write!(f, " --common {}", u8::from(self.is_common))?;
        match &self.steps[..] {
            [] => Ok(()),
            steps => write!(f, " --script {}", written(steps)),
        }
    }
}

/// What was compared and found as the rules have it, for the statistics.
pub enum Told {
    /// Nothing is claimed: a table is refused, the handle is bad or nothing confines the call.
    NotConfined,
    Confined(Box<Confined>),
}

pub struct Confined {
    pub mark: bool,
    pub resolve: u64,
    /// In what the tables differ within the part, if they do.
    pub apart: Option<&'static str>,
    /// Those outside, if the part is in common.
    pub changes: BTreeSet<&'static str>,
    pub traits: Vec<&'static str>,
    pub answers: [[u64; 6]; 2],
    /// Whether the tables would answer differently if nothing confined the call.
    pub differs_free: bool,
    pub reached: u64,
    pub stood: u64,
    pub ran: Ran,
}

/// Whether an open_how, or the mark, confines a call with a good handle (RULES 20.1).
pub fn confines(mark: bool, how: &[u8]) -> bool {
    mark || resolve_field(how).unwrap_or(0) & (BENEATH | IN_ROOT) != 0
}

/// Whether two tables have the part of a call's handle in common, as far as they are accepted.
pub fn is_common(call: &Call, other: &[u8]) -> bool {
    match (accept(&call.image), accept(other)) {
        (Ok(first), Ok(second)) => apart(&first, &second, call.place()).is_none(),
        _ => false,
    }
}

/// One of the two tables, with what both resolvers make of the call.
struct Side<'a> {
    name: &'static str,
    table: &'a Table<'a>,
    reached: BTreeSet<Place>,
    walked: Walked,
    got: Vec<u64>,
}

impl Side<'_> {
    /// Nothing outside the handle's part is told or stood on.
    fn inside(&self, what: &str, place: Place) -> Result<(), Difference> {
        let outside = match self.reached.contains(&place) {
            true => Vec::new(),
            false => vec![place.mount, place.node],
        };
        same(&format!("{}: {what} is not reachable", self.name), &[], outside)
    }

    /// RULES 20.3.
    fn claim_1(&self) -> Result<(), Difference> {
        for place in &self.walked.stood {
            self.inside("a place stood on", *place)?;
        }
        match self.got[..] {
            [0, _, mount, node, ..] => self.inside("the place found", Place { mount, node }),
            _ => Ok(()),
        }
    }
}

/// What the tables are called.
pub const NAMES: [&str; 2] = ["first table", "second table"];

impl Pair {
    pub fn compare(&self, subject: &mut dyn Subject) -> Result<Alike, Difference> {
        for (name, call) in NAMES.iter().zip(self.calls()) {
            ask(subject, &call, &call.answer().0, &format!("{name}: resolve"))?;
        }
        script::answers(self, subject)?;
        self.parts(subject)?;
        self.claims(subject).map(Alike::Pair)
    }

    /// The subject has the part, and whether it is in common, as the rules have it: whatever
    /// confines the call, and in whichever table the handle is good.
    fn parts(&self, subject: &mut dyn Subject) -> Result<(), Difference> {
        let images = [&self.call.image[..], &self.other];
        let (Ok(first), Ok(second)) = (accept(images[0]), accept(images[1])) else { return Ok(()) };
        let handle = self.call.place();
        if first.handle_errno(handle).is_some() {
            return Ok(());
        }
        let (places, is_common) = subject.part(images, handle);
        same("the part's places", &numbers(&reach(&first, handle)), numbers(&places))?;
        let expected = u64::from(in_common(&first, &second, handle));
        same("the part in common", &[expected], vec![u64::from(is_common)])
    }

    /// The call over each of the tables.
    pub fn calls(&self) -> [Call; 2] {
        [self.call.clone(), Call { image: self.other.clone(), ..self.call.clone() }]
    }

    /// The call without what confines it.
    fn free(&self) -> Call {
        let mut call = Call { mark: false, ..self.call.clone() };
        if let Some(byte) = call.how.get_mut(16) {
            *byte &= !((BENEATH | IN_ROOT) as u8);
        }
        call
    }

    /// The same with the tables exchanged.
    pub fn turned(&self) -> Pair {
        let [first, second] = self.calls();
        Pair { call: second, other: first.image, ..self.clone() }
    }

    /// What is claimed of the subject's own answers, whether they are right or not.
    pub fn claims(&self, subject: &mut dyn Subject) -> Result<Told, Difference> {
        let (first, second) = match (accept(&self.call.image), accept(&self.other)) {
            (Ok(first), Ok(second)) if self.is_confined([&first, &second]) => (first, second),
            _ => return Ok(Told::NotConfined),
        };
        let sides = [self.side(0, &first, subject), self.side(1, &second, subject)];
        let [one, two] = &sides;
        one.claim_1()?;
        two.claim_1()?;
        let found = self.common([&first, &second])?;
        if found.is_none() {
            same("claim 2: the second table's answer", &one.got, two.got.clone())?;
            let (stood, other) = (numbers(&one.walked.stood), numbers(&two.walked.stood));
            same("claim 2: the places stood on over the second table", &stood, other)?;
        }
        let ran = script::claims(self, &sides, subject)?;
        Ok(Told::Confined(Box::new(self.told(&sides, found, ran))))
    }

    /// The places of the part in the first table.
    pub fn part(&self) -> Vec<Place> {
        let table = accept(&self.call.image).ok();
        table.map_or(Vec::new(), |table| reach(&table, self.call.place()).into_iter().collect())
    }

    /// The script over each of the tables, if it can begin and is confined in both.
    pub fn scripts(&self) -> Option<[Sequence; 2]> {
        let (first, second) = (accept(&self.call.image).ok()?, accept(&self.other).ok()?);
        script::sequences(self, [&first, &second]).ok()
    }

    fn is_confined(&self, tables: [&Table; 2]) -> bool {
        let is_good = |table: &Table| table.handle_errno(self.call.place()).is_none();
        confines(self.call.mark, &self.call.how) && tables.into_iter().all(is_good)
    }

    fn side<'a>(&self, at: usize, table: &'a Table, subject: &mut dyn Subject) -> Side<'a> {
        let call = &self.calls()[at];
        let handle = call.place();
        Side {
            name: NAMES[at],
            table,
            reached: reach(table, handle),
            walked: walked_in(table, handle, call.mark, &call.path, &call.how),
            got: call.ask(subject),
        }
    }

    /// Where the part differs, which must be as the pair was made, whichever table is first.
    fn common(&self, [first, second]: [&Table; 2]) -> Result<Option<Apart>, Difference> {
        let handle = self.call.place();
        let meant = [u64::from(self.is_common)];
        let found = apart(first, second, handle);
        let is_common = |apart: Option<Apart>| vec![u64::from(apart.is_none())];
        same("whether the part is in common", &meant, is_common(found))?;
        let back = apart(second, first, handle);
        same("whether the part is in common, the tables exchanged", &meant, is_common(back))?;
        Ok(found)
    }

    fn told(&self, sides: &[Side; 2], found: Option<Apart>, ran: Ran) -> Confined {
        let [one, two] = sides;
        let part = Part::of(one.table, &one.reached, self.call.place());
        let changes = match found {
            None => part.changes(two.table),
            Some(_) => BTreeSet::new(),
        };
        let free = self.free();
        let [first, second] = [one, two].map(|side| free.answer_over(Some(side.table)).0);
        Confined {
            mark: self.call.mark,
            resolve: resolve_field(&self.call.how).unwrap_or(0),
            apart: found.map(|apart| apart.what),
            changes,
            traits: part.traits(),
            answers: [one, two].map(|side| side.walked.answer.numbers()),
            differs_free: first != second,
            reached: one.reached.len() as u64,
            stood: one.walked.stood.len() as u64,
            ran,
        }
    }
}

pub fn in_words(places: &[Place]) -> String {
    let places = places.iter().map(|place| format!("({},{})", place.mount, place.node));
    places.collect::<Vec<String>>().join(" ")
}

/// Places in numbers.
fn numbers<'p>(places: impl IntoIterator<Item = &'p Place>) -> Vec<u64> {
    places.into_iter().flat_map(|place| [place.mount, place.node]).collect()
}
