//! The list of worked cases (tests/cases), asked of every side.

use crate::builds;
use crate::descriptors;
#[cfg(feature = "proved")]
use crate::lookups;
use crate::plain::{self, Handle};
#[cfg(feature = "proved")]
use crate::proved;
use crate::side::{checked, Side};
use crate::slots::{Reply, Slots};
use crate::tables::{Call, Input};
use data::sequence::Step;
use data::worked::{self, Asked, Worked};
#[cfg(feature = "proved")]
use ventolaire::{FoundName, NameRefusal, Table};
#[cfg(feature = "proved")]
use ventolaire_sys::ventolaire_lookup;

/// A table check or a call as an input, None for what is asked otherwise.
fn input(case: &Worked) -> Option<Input> {
    let call = match &case.asked {
        Asked::Check => Call::Check,
        Asked::Call(worked::Call { mount, node, mark, path, how }) => Call::Resolve {
            handle: Handle { mount: *mount, node: *node, mark: *mark },
            path: path.clone(),
            how: how.clone(),
        },
        Asked::Sequence(_) | Asked::Lookup(_) | Asked::Build(_) => return None,
    };
    let mut expected = [0; 6];
    expected[..case.expected.len()].copy_from_slice(&case.expected);
    Some(Input { image: case.image.clone(), call, expected })
}

/// The answers of a side to a case, by each way that it has; none if it takes no part.
fn answers(side: Side, case: &Worked) -> Vec<Vec<u64>> {
    let numbers = case.expected.len();
    match (&case.asked, input(case)) {
        (Asked::Sequence(steps), _) => replies(side, &case.image, steps),
        (Asked::Lookup(lookup), _) => looked_up(side, &case.image, lookup),
        (Asked::Build(build), _) => built(side, build),
        (_, Some(input)) if side.takes_part(&input) => {
            side.answers(&input).iter().map(|answer| answer[..numbers].to_vec()).collect()
        }
        _ => Vec::new(),
    }
}

/// The reply to the last of some calls on descriptors, or the answer of their start:
/// with the table checked by each open and, where it is accepted, without that and,
/// of the library, by `bindings/rust`.
fn replies(side: Side, image: &[u8], steps: &[Step]) -> Vec<Vec<u64>> {
    match side {
        Side::Plain => {
            let checked = &checked(plain::check(image))[..2];
            let mut slots = Slots::start(image);
            let mut replies = vec![last(checked, steps, |step| slots.make(image, step))];
            if checked[0] == 0 {
                let mut descriptors = descriptors::plain(image);
                replies.push(last(&[0, 0], steps, |step| descriptors.make(step)));
            }
            replies
        }
        Side::Linear => Vec::new(),
        #[cfg(feature = "proved")]
        Side::Proved => {
            let (checked, mut descriptors) = proved::started(image);
            let mut replies = vec![last(&checked, steps, |step| descriptors.make(step))];
            if checked[0] == 0 {
                let mut descriptors = proved::descriptors(image);
                replies.push(last(&[0, 0], steps, |step| descriptors.make(step)));
                let mut descriptors = proved::table(image).descriptors();
                replies.push(last(&[0, 0], steps, |step| proved::make(&mut descriptors, step)));
            }
            replies
        }
    }
}

/// The reply to the last of the steps, or what the start answered if there are none.
fn last(start: &[u64], steps: &[Step], mut make: impl FnMut(&Step) -> Reply) -> Vec<u64> {
    steps.iter().fold(start.to_vec(), |_, step| make(step).to_vec())
}

/// The answers to a lookup: with the table checked and, where it is accepted, without that and,
/// of the library, by `bindings/rust`. Those of the plain side tell no names compared.
fn looked_up(side: Side, image: &[u8], lookup: &worked::Lookup) -> Vec<Vec<u64>> {
    let (node, name) = (lookup.node, &lookup.name[..]);
    match side {
        Side::Plain => {
            let answer = plain::lookup(image, node, name);
            let is_accepted = answer != Err(plain::Errno::EUCLEAN);
            let once_more = is_accepted.then(|| plain::lookup_checked(image, node, name));
            [answer].into_iter().chain(once_more).map(entry).collect()
        }
        Side::Linear => Vec::new(),
        #[cfg(feature = "proved")]
        Side::Proved => {
            // SAFETY: this function takes any bytes for an image.
            let any = unsafe { lookups::Accepted::new(image, ventolaire_lookup) };
            let mut answers = vec![any.lookup(node, name)];
            answers.push(named(ventolaire::lookup(image, node, name)));
            if let Ok(table) = Table::new(image) {
                answers.push(proved::lookups(image).lookup(node, name));
                answers.push(named(table.lookup(node, name)));
            }
            answers.iter().map(|answer| answer.to_vec()).collect()
        }
    }
}

/// What the plain side found: errno, entry and node.
fn entry(answer: Result<(usize, u16), plain::Errno>) -> Vec<u64> {
    match answer {
        Ok((entry, node)) => vec![0, entry as u64, node.into()],
        Err(errno) => vec![errno as u64, 0, 0],
    }
}

/// What `bindings/rust` found, in the numbers of the library.
#[cfg(feature = "proved")]
fn named(answer: Result<FoundName, NameRefusal>) -> lookups::Numbers {
    match answer {
        Ok(FoundName { entry, node, compared, .. }) => [0, entry, node, compared],
        Err(NameRefusal { errno, compared, .. }) => [errno.number(), 0, 0, compared],
    }
}

/// The answer to a build; where the buffer is not as it should be, a 1 follows. The tests of
/// `bindings/rust` ask the same of that.
fn built(side: Side, build: &worked::Build) -> Vec<Vec<u64>> {
    if matches!(side, Side::Linear) {
        return Vec::new();
    }
    let (numbers, image) = builds::built(side, build);
    let is_right = image.as_ref() == Ok(&build.written);
    vec![numbers.into_iter().chain((!is_right).then_some(1)).collect()]
}

/// What a side has to answer.
fn expected(side: Side, case: &Worked) -> &[u64] {
    match (&case.asked, side) {
        (Asked::Lookup(_), Side::Plain) => &case.expected[..3],
        _ => &case.expected,
    }
}

/// How many answers of all sides are those of the list, and how many are not;
/// these are told, with the case's bytes.
pub fn compare(cases: &[Worked]) -> (usize, usize) {
    let (mut passed, mut failed) = (0, 0);
    for case in cases {
        for side in Side::all() {
            for answer in answers(side, case) {
                let expected = expected(side, case);
                if answer == expected {
                    passed += 1;
                    continue;
                }
                failed += 1;
                println!("{}: {}", case.name, side.name());
                println!("  expected {expected:?}");
                println!("  got      {answer:?}");
                println!("  replay {case}");
            }
        }
    }
    (passed, failed)
}

/// Where the list stands for the tests.
#[cfg(test)]
pub fn list() -> String {
    format!("{}/../{}", env!("CARGO_MANIFEST_DIR"), worked::LIST)
}

#[test]
fn every_side_answers_as_the_list_says() {
    let cases = worked::read_file(&list()).unwrap();
    let (passed, failed) = compare(&cases);
    assert!(passed > cases.len() && failed == 0, "{passed} passed, {failed} failed");
}
