//! The list of worked cases, asked of both sides.

use crate::build::Build;
use crate::builder::{Built, Parts};
use crate::case::{Call, Case, Difference};
use crate::lookup::Lookup;
use crate::resolver;
use crate::sequence::Sequence;
use crate::subject::{Lent, Subject, Way};
use data::worked::Asked;
use std::fmt;

/// A case of the list.
pub struct Worked {
    listed: data::worked::Worked,
    case: Case,
}

pub fn read_file(file: &str) -> Result<Vec<Worked>, String> {
    Ok(data::worked::read_file(file)?.into_iter().map(Worked::from).collect())
}

impl From<data::worked::Worked> for Worked {
    fn from(listed: data::worked::Worked) -> Worked {
        let image = listed.image.clone();
        let case = match listed.asked.clone() {
            Asked::Check => Case::Table(image),
            Asked::Call(data::worked::Call { mount, node, mark, path, how }) => {
                let (added, added_mark) = (0, false);
                Case::Call(Call { image, mount, node, mark, path, how, added, added_mark })
            }
            Asked::Sequence(steps) => Case::Sequence(Sequence { image, steps }),
            Asked::Lookup(data::worked::Lookup { node, name }) => {
                Case::Lookup(Lookup { image, node, name })
            }
            Asked::Build(data::worked::Build { nodes, mounts, entries, text, room, .. }) => {
                let parts = Parts { nodes, mounts, entries, text };
                Case::Build(Build { parts, room: room as usize })
            }
        };
        Worked { listed, case }
    }
}

/// The case as the arguments of `compare replay`.
impl fmt::Display for Worked {
    fn fmt(&self, f: &mut fmt::Formatter) -> fmt::Result {
        self.listed.fmt(f)
    }
}

impl Worked {
    pub fn name(&self) -> &str {
        &self.listed.name
    }

    fn difference(&self, what: &'static str, got: Vec<u64>) -> Difference {
        Difference { what: what.into(), expected: self.listed.expected.clone(), got }
    }

    fn compare(&self, what: &'static str, got: Vec<u64>) -> Result<(), Difference> {
        if got == self.listed.expected {
            return Ok(());
        }
        Err(self.difference(what, got))
    }

    /// The comparing resolver's answer is the expected one.
    pub fn compare_resolver(&self) -> Result<(), Difference> {
        let got = match &self.case {
            Case::Table(image) => resolver::check(image).to_vec(),
            // None is in the list.
            Case::Manifest(_) | Case::Pair(_) => Vec::new(),
            Case::Call(call) => call.answer().0.numbers().to_vec(),
            Case::Sequence(sequence) => sequence.expected().pop().unwrap_or_default(),
            Case::Lookup(lookup) => lookup.expected().to_vec(),
            Case::Build(build) => {
                let Built { numbers, image } = build.expected();
                // As where a subject leaves another buffer.
                let is_other = image != self.written();
                [&numbers[..], if is_other { &[1] } else { &[] }].concat()
            }
        };
        self.compare("the comparing resolver", got)
    }

    /// The subject's answer is the expected one, and it only read what it was
    /// lent.
    pub fn compare_subject(&self, subject: &mut dyn Subject) -> Result<(), Difference> {
        for (got, untouched) in self.got(subject) {
            self.compare("the subject", got.clone())?;
            if !untouched {
                return Err(self.difference("lent bytes were changed", got));
            }
        }
        Ok(())
    }

    /// The subject's answer, and whether it left what it was lent as it was; in all the ways
    /// that it can be asked.
    fn got(&self, subject: &mut dyn Subject) -> Vec<(Vec<u64>, bool)> {
        match &self.case {
            Case::Table(image) => {
                let mut lent = image.clone();
                let got = subject.check(&mut lent);
                vec![(got, lent == *image)]
            }
            Case::Call(call) => {
                let before = call.lent();
                let mut lent: Lent = before.clone();
                let got = subject.resolve(&mut lent, call.handle());
                vec![(got, lent == before)]
            }
            Case::Sequence(sequence) => {
                let last = |way: &Way| {
                    let (mut replies, untouched) = sequence.got(subject, *way);
                    (replies.pop().unwrap_or_default(), untouched)
                };
                sequence.ways().iter().map(last).collect()
            }
            Case::Lookup(lookup) => lookup.got(subject),
            Case::Build(build) => vec![build.got(subject, self.written())],
            Case::Manifest(_) | Case::Pair(_) => Vec::new(),
        }
    }

    /// The image that a build is to write; empty if it is refused.
    fn written(&self) -> &[u8] {
        match &self.listed.asked {
            Asked::Build(build) => &build.written,
            _ => &[],
        }
    }

    /// Whether it has one call more than another case of the same sequence.
    fn continues(&self, other: &Worked) -> bool {
        match (&self.case, &other.case) {
            (Case::Sequence(longer), Case::Sequence(shorter)) => {
                longer.steps.len() == shorter.steps.len() + 1 && longer.image == shorter.image
            }
            _ => false,
        }
    }
}

/// The names of the cases that the subject answers otherwise than the list says. A sequence
/// is asked once, by its last case, which has all of its calls.
pub fn answered_otherwise<'a>(cases: &'a [Worked], subject: &mut dyn Subject) -> Vec<&'a str> {
    let mut names = Vec::new();
    for run in cases.chunk_by(|case, next| next.continues(case)) {
        let otherwise = match run.last().map(|last| &last.case) {
            Some(Case::Sequence(sequence)) => of_a_sequence(run, sequence, subject),
            _ => run.iter().filter(|case| case.compare_subject(subject).is_err()).collect(),
        };
        names.extend(otherwise.into_iter().map(Worked::name));
    }
    names
}

/// Those of one sequence, whose calls these are.
fn of_a_sequence<'a>(
    cases: &'a [Worked],
    sequence: &Sequence,
    subject: &mut dyn Subject,
) -> Vec<&'a Worked> {
    let got: Vec<_> = sequence.ways().iter().map(|way| sequence.got(subject, *way)).collect();
    let is_as_expected = |case: &Worked, number: usize| {
        got.iter().all(|(replies, untouched)| *untouched && replies[number] == case.listed.expected)
    };
    let first = 1 + sequence.steps.len() - cases.len();
    let numbered = (first..).zip(cases);
    numbered.filter(|(number, case)| !is_as_expected(case, *number)).map(|(_, case)| case).collect()
}

#[cfg(test)]
mod tests {
    use super::*;
    use crate::faults::Fault;
    use crate::subject::Planted;
    use data::worked::LIST;

    fn list() -> Vec<Worked> {
        read_file(&format!("{}/../../{LIST}", env!("CARGO_MANIFEST_DIR"))).expect("the list")
    }

    #[test]
    fn both_shapes_answer_as_the_list_says() {
        for worked in list() {
            for compared in [worked.compare_resolver(), worked.compare_subject(&mut Planted(None))]
            {
                if let Err(difference) = compared {
                    let Difference { what, expected, got } = difference;
                    panic!(
                        "{}: {what}: expected {expected:?}, got {got:?}\n{worked}",
                        worked.name()
                    );
                }
            }
        }
    }

    #[test]
    fn each_fault_is_found_by_the_case_that_it_names() {
        let cases = list();
        for fault in Fault::ALL.iter().filter(|fault| !fault.is_of_manifests()) {
            let named = cases.iter().find(|worked| worked.name() == fault.found_by());
            let named = named.unwrap_or_else(|| panic!("{fault:?} names no case"));
            assert!(named.compare_subject(&mut Planted(Some(*fault))).is_err(), "{fault:?}");
        }
    }

    #[test]
    fn a_sequence_asked_once_is_answered_as_its_cases_are() {
        let mut cases = list();
        cases.retain(|case| ["asked", "through"].iter().any(|name| case.name().starts_with(name)));
        for fault in [Fault::MarkInherited, Fault::AcceptedUnmarked] {
            let mut subject = Planted(Some(fault));
            let once = answered_otherwise(&cases, &mut subject);
            let each = cases.iter().filter(|case| case.compare_subject(&mut subject).is_err());
            assert!(!once.is_empty() && each.map(Worked::name).eq(once), "{fault:?}");
        }
    }
}
