//! Seeded inputs: tables in many shapes, damage to them, calls, sequences of calls on
//! descriptors, lookups, builds, manifests, and pairs of tables.
//!
//! Most calls are meant to reach the walk and go on for several components,
//! so paths are grown along the table with the resolver itself. A case is
//! fixed by the seed, its stream (tables, calls and so on) and its number.
//!
//! A table begins with nodes (`nodes`), which are named (`names`), mounted
//! (`mounts`) and given targets and bodies (`bodies`), with links that lead on and
//! on (`chains`); or it is as large as can be (`limits`). Then it may be spoiled
//! (`damage`). A call has an open_how (`hows`), a handle (`handles`) and a path
//! (`paths`); so has each open of a sequence (`sequences`), its handle being a descriptor's.
//! A lookup (`lookups`) is mostly about a table that has more names than others (`listings`).
//! A build (`builds`) has the parts of a table, mostly with another text (`texts`).
//!
//! A pair (`pairs`) has a first table, often one hung into another (`embedded`), a second that
//! differs from it outside a handle's part (`outside`) or in it (`inside`), a call that is
//! confined to the part, and a script of such calls on descriptors (`scripts`).

mod bodies;
mod builds;
mod calls;
mod chains;
mod damage;
mod embedded;
mod handles;
mod hows;
mod inside;
mod limits;
mod listings;
mod lookups;
mod mounts;
mod names;
mod nodes;
mod outside;
mod pairs;
mod paths;
mod scripts;
mod sequences;
mod tables;
#[cfg(test)]
mod tests;
mod texts;

pub use calls::call;
pub use lookups::question;
pub use texts::relaid;

use crate::case::Case;
use crate::resolver::accept;
use builds::builds;
use damage::damage;
use data::dice::Dice;
use lookups::lookups;
use pairs::pairs;
use sequences::sequence;
use std::collections::VecDeque;
use tables::table;

const TABLES_A_GROUP: u64 = 4;
const CALLS_A_GROUP: u64 = 12;
const SEQUENCES_A_GROUP: u64 = 1;
const LOOKUPS_A_GROUP: u64 = 24;
const BUILDS_A_GROUP: u64 = 6;
const MANIFESTS_A_GROUP: u64 = 1;
const PAIRS_A_GROUP: u64 = 3;

/// Some checks of one table: as it is, and damaged.
fn table_group(seed: u64, group: u64) -> Vec<Case> {
    let mut dice = Dice::new(seed, 1, group);
    let image = table(&mut dice);
    let mut cases = vec![Case::Table(image.clone())];
    while (cases.len() as u64) < TABLES_A_GROUP {
        cases.push(Case::Table(damage(&mut dice, &image)));
    }
    cases
}

/// Some calls on one table.
fn call_group(seed: u64, group: u64) -> Vec<Case> {
    let mut dice = Dice::new(seed, 2, group);
    let image = table(&mut dice);
    let table = accept(&image).ok();
    (0..CALLS_A_GROUP).map(|_| Case::Call(call(&mut dice, &image, table.as_ref()))).collect()
}

/// A sequence, with a table of its own.
fn sequence_group(seed: u64, group: u64) -> Vec<Case> {
    vec![Case::Sequence(sequence(&mut Dice::new(seed, 4, group)))]
}

/// Some lookups in one table.
fn lookup_group(seed: u64, group: u64) -> Vec<Case> {
    let mut dice = Dice::new(seed, 5, group);
    lookups(&mut dice, LOOKUPS_A_GROUP as usize).into_iter().map(Case::Lookup).collect()
}

/// Some builds from one table.
fn build_group(seed: u64, group: u64) -> Vec<Case> {
    let mut dice = Dice::new(seed, 6, group);
    builds(&mut dice, BUILDS_A_GROUP as usize).into_iter().map(Case::Build).collect()
}

/// The manifest of one table, nearly always an accepted one.
fn manifest_group(seed: u64, group: u64) -> Vec<Case> {
    vec![Case::Manifest(table(&mut Dice::new(seed, 10, group)))]
}

/// Some pairs with one first table.
fn pair_group(seed: u64, group: u64) -> Vec<Case> {
    let mut dice = Dice::new(seed, 11, group);
    pairs(&mut dice, PAIRS_A_GROUP as usize).into_iter().map(Case::Pair).collect()
}

/// The cases of a group, by the seed and its number.
type Group = fn(u64, u64) -> Vec<Case>;

/// A case with its stream and its number there.
pub struct Numbered {
    pub stream: &'static str,
    pub number: u64,
    pub case: Case,
}

/// One case by itself, without those before it.
pub fn one(seed: u64, stream: &str, number: u64) -> Option<Case> {
    let (group, many) = match stream {
        "table" => (table_group as Group, TABLES_A_GROUP),
        "call" => (call_group as Group, CALLS_A_GROUP),
        "sequence" => (sequence_group as Group, SEQUENCES_A_GROUP),
        "lookup" => (lookup_group as Group, LOOKUPS_A_GROUP),
        "build" => (build_group as Group, BUILDS_A_GROUP),
        "manifest" => (manifest_group as Group, MANIFESTS_A_GROUP),
        "pair" => (pair_group as Group, PAIRS_A_GROUP),
        _ => return None,
    };
    group(seed, number / many).into_iter().nth((number % many) as usize)
}

/// How many cases of each stream a run has.
#[derive(Clone, Copy, Default)]
pub struct Wanted {
    pub tables: u64,
    pub calls: u64,
    pub sequences: u64,
    pub lookups: u64,
    pub builds: u64,
    pub manifests: u64,
    pub pairs: u64,
}

/// All the cases of a run, a group of each stream in turn.
pub struct Cases {
    seed: u64,
    streams: [Stream; 7],
    ready: VecDeque<Numbered>,
}

struct Stream {
    name: &'static str,
    group: Group,
    a_group: u64,
    made: u64,
    wanted: u64,
}

impl Stream {
    /// The next group, if more are wanted; a last one may hold more than that.
    fn next(&mut self, seed: u64) -> Vec<Numbered> {
        if self.made >= self.wanted {
            return Vec::new();
        }
        let first = self.made;
        self.made += self.a_group;
        let numbered = (first..).zip((self.group)(seed, first / self.a_group));
        numbered
            .take_while(|(number, _)| *number < self.wanted)
            .map(|(number, case)| Numbered { stream: self.name, number, case })
            .collect()
    }
}

impl Cases {
    pub fn new(seed: u64, wanted: Wanted) -> Cases {
        let stream =
            |name, group: Group, a_group, wanted| Stream { name, group, a_group, made: 0, wanted };
        let streams = [
            stream("table", table_group, TABLES_A_GROUP, wanted.tables),
            stream("call", call_group, CALLS_A_GROUP, wanted.calls),
            stream("sequence", sequence_group, SEQUENCES_A_GROUP, wanted.sequences),
            stream("lookup", lookup_group, LOOKUPS_A_GROUP, wanted.lookups),
            stream("build", build_group, BUILDS_A_GROUP, wanted.builds),
            stream("manifest", manifest_group, MANIFESTS_A_GROUP, wanted.manifests),
            stream("pair", pair_group, PAIRS_A_GROUP, wanted.pairs),
        ];
        Cases { seed, streams, ready: VecDeque::new() }
    }
}

impl Iterator for Cases {
    type Item = Numbered;

    fn next(&mut self) -> Option<Numbered> {
        if self.ready.is_empty() {
            self.ready.extend(self.streams.iter_mut().flat_map(|stream| stream.next(self.seed)));
        }
        self.ready.pop_front()
    }
}
