//! Plants each fault in turn and sees that it is found.

use crate::arguments::Arguments;
use crate::case::Case;
use crate::faults::Fault;
use crate::generate::{Cases, Numbered, Wanted};
use crate::subject::Planted;
use crate::worked::{self, Worked};
use crate::USUAL;

/// How the comparison finds a fault: after how many cases, and at which.
fn found_by_comparing(fault: Fault, seed: u64) -> Option<String> {
    let mut subject = Planted(Some(fault));
    let mut compared = 0u64;
    Cases::new(seed, USUAL).find_map(|numbered| {
        compared += 1;
        let difference = numbered.case.compare(&mut subject).err()?;
        Some(format!(
            "after {compared} cases, at {} {}: {}",
            numbered.stream, numbered.number, difference.what
        ))
    })
}

/// How pairs find a fault by what RULES 20 claims, whether the answers are right or not.
fn found_by_claims(fault: Fault, seed: u64) -> Option<String> {
    let mut subject = Planted(Some(fault));
    let pairs = Cases::new(seed, Wanted { pairs: USUAL.pairs, ..Wanted::default() });
    pairs.into_iter().find_map(|numbered| {
        let Case::Pair(pair) = &numbered.case else { return None };
        let difference = pair.claims(&mut subject).err()?;
        Some(format!("at pair {}: {}", numbered.number, difference.what))
    })
}

/// How many of the worked cases find a fault, and the one that the list names.
fn found_by_cases(fault: Fault, cases: &[Worked]) -> Option<String> {
    let found = worked::answered_otherwise(cases, &mut Planted(Some(fault)));
    let named = found.iter().find(|name| **name == fault.found_by())?;
    Some(format!("by {}, among them {named}", found.len()))
}

/// A tenth of what is wanted.
fn fewer(wanted: Wanted) -> Wanted {
    let Wanted { tables, calls, sequences, lookups, builds, manifests, pairs } = wanted;
    let [tables, calls, sequences, lookups, builds, manifests, pairs] =
        [tables, calls, sequences, lookups, builds, manifests, pairs].map(|count| count / 10);
    Wanted { tables, calls, sequences, lookups, builds, manifests, pairs }
}

/// Plants each fault in turn and sees that it is found.
pub fn run(arguments: &Arguments) -> Result<bool, String> {
    arguments.known(&[], &["--seed", "--cases"])?;
    let seed = arguments.number("--seed")?.unwrap_or(1);
    let cases = arguments.text("--cases").map(worked::read_file).transpose()?;
    let mut passed = 0;
    let mut failed = 0;
    let mut count = |found: Option<String>| {
        *(if found.is_some() { &mut passed } else { &mut failed }) += 1;
        found.unwrap_or_else(|| "NOT FOUND".into())
    };
    for fault in Fault::ALL {
        println!("{fault:?} ({})", fault.line());
        println!("  compared: {}", count(found_by_comparing(*fault, seed)));
        if let Some(cases) = cases.as_ref().filter(|_| !fault.is_of_manifests()) {
            println!("  worked cases: {}", count(found_by_cases(*fault, cases)));
        }
        if Fault::UNCONFINED.contains(fault) {
            println!("  claims on pairs: {}", count(found_by_claims(*fault, seed)));
        }
    }
    // And nothing is found where there is no fault.
    let mut subject = Planted(None);
    let alike = |numbered: Numbered| numbered.case.compare(&mut subject).is_ok();
    let none = Cases::new(seed, fewer(USUAL)).all(alike);
    println!("with no fault");
    println!("  compared: {}", count(none.then(|| "no difference".into())));
    println!("{passed} passed, {failed} failed");
    Ok(failed == 0)
}
