//! A lookup of a name in one directory, and its comparison.

use crate::case::{same, Alike, Difference};
use crate::halving::{self, lookup_in, Looked};
use crate::resolver::{accept, Table, DIRECTORY};
use crate::subject::{Subject, Way};
use data::hex;
use data::worked::check_arguments;
use std::fmt;

#[derive(Clone, PartialEq, Eq)]
pub struct Lookup {
    pub image: Vec<u8>,
    pub node: u64,
    pub name: Vec<u8>,
}

/// How many numbers an answer has.
const ROOM: usize = 4;
const CHECKED: Way = Way { accepted: false, room: ROOM };
pub const ACCEPTED: Way = Way { accepted: true, room: ROOM };

/// Outputs that are too short, and one that has room behind the answer.
const OTHER_ROOMS: [usize; 3] = [0, ROOM - 1, ROOM + 2];

/// The lookup as the arguments of `compare replay`.
impl fmt::Display for Lookup {
    fn fmt(&self, f: &mut fmt::Formatter) -> fmt::Result {
        let name = if self.name.is_empty() { "''".into() } else { hex(&self.name) };
        write!(f, "{} --node {} --name {name}", check_arguments(&self.image), self.node)
    }
}

impl Lookup {
    pub fn compare(&self, subject: &mut dyn Subject) -> Result<Alike, Difference> {
        let table = accept(&self.image).ok();
        let count = self.count(table.as_ref());
        let answer = lookup_in(table.as_ref(), self.node, &self.name);
        let mut asking = Asking { subject, lookup: self, lent: self.clone() };
        for (what, way) in ways(table.is_some()) {
            asking.ask(what, &answer, *way)?;
            for room in OTHER_ROOMS {
                let fitting = if room < ROOM { &[][..] } else { &answer };
                let what = format!("{what} with room for {room}");
                asking.ask(&what, fitting, Way { room, ..*way })?;
            }
        }
        at_most_the_digits(count, answer[3])?;
        Ok(Alike::Lookup { count, answer })
    }

    /// The directory's count; 0 if there is no such directory.
    fn count(&self, table: Option<&Table>) -> u64 {
        let node = table.and_then(|table| table.node(self.node));
        node.filter(|node| node.kind == DIRECTORY).map_or(0, |directory| directory.count)
    }

    pub fn expected(&self) -> Looked {
        halving::lookup(&self.image, self.node, &self.name)
    }

    /// What the subject answers, in every way that it can be asked, and whether it left what
    /// it was lent as it was.
    pub fn got(&self, subject: &mut dyn Subject) -> Vec<(Vec<u64>, bool)> {
        let mut got = Vec::new();
        for (_, way) in ways(accept(&self.image).is_ok()) {
            let mut lent = self.clone();
            let answer = subject.lookup(&mut lent.image, lent.node, &mut lent.name, *way);
            got.push((answer, lent == *self));
        }
        got
    }
}

/// The ways that a lookup can be asked in, the second only of an accepted image.
fn ways(accepted: bool) -> &'static [(&'static str, Way)] {
    match accepted {
        true => &[("lookup", CHECKED), ("lookup_accepted", ACCEPTED)],
        false => &[("lookup", CHECKED)],
    }
}

/// A lookup that a subject is asked for.
struct Asking<'a> {
    subject: &'a mut dyn Subject,
    lookup: &'a Lookup,
    /// What it is lent, which must stay as it is.
    lent: Lookup,
}

impl Asking<'_> {
    fn ask(&mut self, what: &str, expected: &[u64], way: Way) -> Result<(), Difference> {
        let Lookup { image, node, name } = &mut self.lent;
        let got = self.subject.lookup(image, *node, name, way);
        same(what, expected, got)?;
        let changed = [
            u64::from(self.lent.image != self.lookup.image),
            u64::from(self.lent.name != self.lookup.name),
        ];
        same("lent bytes were changed (image, name)", &[0, 0], changed.to_vec())
    }
}

/// "at most as many as the directory's count has binary digits": whatever the halving, of
/// which both sides could have the same wrong idea.
fn at_most_the_digits(count: u64, compared: u64) -> Result<(), Difference> {
    let digits = u64::from(u64::BITS - count.leading_zeros());
    let what = "names compared, at most as many as the directory's count has binary digits";
    same(what, &[compared.min(digits)], vec![compared])
}

#[cfg(test)]
mod tests;
