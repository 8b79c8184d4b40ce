//! The target over its seeds and over damaged ones.

mod damage;
mod faults;
mod large;

use crate::*;
use data::dice::Dice;
use std::fs;
use std::panic::{catch_unwind, RefUnwindSafe};
use std::path::Path;

/// Of each seed, by chance. One that is cut at each byte comes besides.
const DAMAGED: usize = 600;

/// Of a seed longer than this, one in so many is enough.
const LONG: usize = 512;
const SHARE: usize = 16;

/// The seeds with their names, in the names' order.
fn seeds() -> Vec<(String, Vec<u8>)> {
    let folder = Path::new(env!("CARGO_MANIFEST_DIR")).join("seeds");
    let files = fs::read_dir(folder).unwrap().map(|file| file.unwrap().path());
    let name = |file: &Path| file.file_name().unwrap().display().to_string();
    let mut seeds: Vec<(String, Vec<u8>)> =
        files.map(|file| (name(&file), fs::read(&file).unwrap())).collect();
    seeds.sort();
    seeds
}

/// A text, and what was done to which seed.
type Input = (String, Vec<u8>);

/// A seed cut at each byte, and damaged by chance.
fn damaged<'a>(
    stream: u64,
    (name, text): &'a (String, Vec<u8>),
    others: &'a [&'a [u8]],
) -> impl Iterator<Item = Input> + 'a {
    let step = if text.len() > LONG { SHARE } else { 1 };
    let cut = (0..text.len()).step_by(step);
    let cut = cut.map(move |at| (format!("{name}, cut at {at}"), text[..at].to_vec()));
    let by_chance = (0..DAMAGED / step).map(move |number| {
        let mut dice = Dice::new(1, stream, number as u64);
        let what = format!("seed {stream}, {name}, damaged {number}");
        (what, damage::damaged(text, others, &mut dice))
    });
    by_chance.chain(cut)
}

/// What does not hold, a panic of the crate too.
fn wrong(subject: &(impl Subject + RefUnwindSafe), text: &[u8]) -> Option<String> {
    match catch_unwind(|| look(subject, text)) {
        Ok(look) => look.err(),
        Err(_) => Some("a panic".into()),
    }
}

#[test]
fn all_holds_of_the_seeds() {
    for (name, text) in seeds() {
        assert_eq!(wrong(&Crate, &text), None, "{name}");
        let parsed = Crate.parse(&text);
        let end = match parsed.as_ref().map(Manifest::build) {
            Err(_) => "unread",
            Ok(Err(_)) => "refused",
            Ok(Ok(_)) => "",
        };
        let said = ["unread", "refused"].into_iter().find(|end| name.starts_with(end));
        assert_eq!(end, said.unwrap_or_default(), "{name}");
    }
}

/// Of every second seed, from this one on.
fn all_holds_of_damaged(from: usize) {
    let seeds = seeds();
    let others: Vec<&[u8]> = seeds.iter().map(|(_, text)| &text[..]).collect();
    let seeds = (0..).zip(&seeds).skip(from).step_by(2);
    for (what, text) in seeds.flat_map(|(stream, seed)| damaged(stream, seed, &others)) {
        if let Some(wrong) = wrong(&Crate, &text) {
            panic!("{what}: {}\n{wrong}", text.escape_ascii());
        }
    }
}

// Two tests, that run beside each other.

#[test]
fn all_holds_of_damaged_seeds() {
    all_holds_of_damaged(0);
}

#[test]
fn all_holds_of_the_other_damaged_seeds() {
    all_holds_of_damaged(1);
}

/// Each rule that a manifest can break is broken by a seed, but for the image's length, of which
/// `large` has a text.
#[test]
fn the_seeds_break_each_rule() {
    let broken = seeds().into_iter().filter_map(|(_, text)| {
        match Crate.parse(&text).ok()?.build().err()?.problem {
            Problem::Broken { broken, .. } => Some(broken.rule),
            _ => None,
        }
    });
    let rules: std::collections::BTreeSet<u64> = broken.collect();
    assert!(rules.into_iter().eq(3..=7));
}
