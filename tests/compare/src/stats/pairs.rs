//! What pairs of tables had in common, and what became of their calls.

use super::{errno_name, line, range};
#[cfg(test)]
use crate::common;
use crate::pair::{Confined, Ran, Told};
use crate::resolver::{BENEATH, IN_ROOT};
use std::collections::BTreeMap;

type Counts<K> = BTreeMap<K, u64>;

#[derive(Default)]
pub struct Pairs {
    pub pairs: u64,
    not_confined: u64,
    /// Those that have the part in common, and those of them that have all in common.
    pub common: u64,
    same: u64,
    /// Those that have the part in common, and would be answered differently were the call free.
    differ_free: u64,
    /// Those that differ inside, and those of them that are answered otherwise.
    pub apart: u64,
    pub told_apart: u64,
    /// In what they differ inside, and how many of them are answered otherwise.
    inside: BTreeMap<&'static str, (u64, u64)>,
    outside: Counts<&'static str>,
    traits: Counts<&'static str>,
    confined_by: Counts<&'static str>,
    answers: Counts<u64>,
    reached: Counts<(u64, String)>,
    stood: Counts<(u64, String)>,
    scripts: Counts<&'static str>,
    pub scripted: u64,
    steps: [u64; 2],
}

/// All that may be told of a pair.
#[cfg(test)]
const OUTSIDE: [&str; 26] = [
    "more nodes",
    "fewer nodes",
    "more mounts",
    "fewer mounts",
    "more entries",
    "fewer entries",
    "text",
    "numbers of the part's entries",
    "what a covered directory holds",
    "parent of the handle's node",
    "handle's node a top",
    "parent of a mount's root",
    "where the part's body lies",
    "target of the part's link",
    "kind of a node",
    "parent of a directory",
    "number of names",
    "names in a directory",
    "nodes in a directory",
    "body",
    "target",
    "root of mount 0",
    "root of the handle's mount",
    "root of another mount",
    "point of the handle's mount",
    "point of another mount",
];
#[cfg(test)]
const TRAITS: [&str; 11] = [
    "handle: mount 0's root",
    "handle: another mount's root",
    "handle: below mount 0's root",
    "handle: below another root",
    "no more than the handle",
    "all nodes",
    "link up",
    "absolute link",
    "magic link",
    "mount",
    "node at two places",
];
#[cfg(test)]
const CONFINED_BY: [&str; 6] = [
    "BENEATH",
    "BENEATH and the mark",
    "IN_ROOT",
    "IN_ROOT and the mark",
    "the mark",
    "BENEATH and IN_ROOT",
];

fn confined_by(mark: bool, resolve: u64) -> &'static str {
    match (resolve & (BENEATH | IN_ROOT), mark) {
        (BENEATH, false) => "BENEATH",
        (BENEATH, true) => "BENEATH and the mark",
        (IN_ROOT, false) => "IN_ROOT",
        (IN_ROOT, true) => "IN_ROOT and the mark",
        (0, _) => "the mark",
        _ => "BENEATH and IN_ROOT",
    }
}

impl Pairs {
    pub fn note(&mut self, told: &Told) {
        self.pairs += 1;
        match told {
            Told::NotConfined => self.not_confined += 1,
            Told::Confined(confined) => self.note_confined(confined),
        }
    }

    fn note_confined(&mut self, confined: &Confined) {
        let [first, second] = confined.answers;
        match confined.apart {
            None => {
                self.common += 1;
                self.differ_free += u64::from(confined.differs_free);
            }
            Some(what) => {
                let entry = self.inside.entry(what).or_default();
                entry.0 += 1;
                entry.1 += u64::from(first != second);
                self.apart += 1;
                self.told_apart += u64::from(first != second);
            }
        }
        confined.changes.iter().for_each(|name| *self.outside.entry(name).or_default() += 1);
        confined.traits.iter().for_each(|name| *self.traits.entry(name).or_default() += 1);
        let is_same = confined.apart.is_none() && confined.changes.is_empty();
        self.same += u64::from(is_same);
        let by = confined_by(confined.mark, confined.resolve);
        *self.confined_by.entry(by).or_default() += 1;
        *self.answers.entry(first[0]).or_default() += 1;
        let bounds = [0, 1, 2, 3, 5, 8, 15, 40, 100, 1000];
        *self.reached.entry(range(confined.reached, &bounds)).or_default() += 1;
        *self.stood.entry(range(confined.stood, &bounds)).or_default() += 1;
        self.note_script(confined.ran);
    }

    fn note_script(&mut self, ran: Ran) {
        let what = match ran {
            Ran::NotWritten => "no way in the first table",
            Ran::NoWay => "no way in the second table",
            Ran::NotConfined => "not confined in the second",
            Ran::Whole(counts) => {
                self.scripted += 1;
                (0..2).for_each(|at| self.steps[at] += counts[at]);
                "run"
            }
        };
        *self.scripts.entry(what).or_default() += 1;
    }

    /// What should occur in every run of some length and did not.
    #[cfg(test)]
    pub fn missing(&self) -> Vec<String> {
        let inside = [
            common::KIND,
            common::MOUNT,
            common::ROOT,
            common::COUNT,
            common::NAME,
            common::NODE,
            common::BODY,
        ];
        let is_untold = |what: &&str| self.inside.get(what).is_none_or(|(_, told)| *told == 0);
        let inside = inside.into_iter().filter(is_untold).map(|what| format!("pair: {what}"));
        let absent = |counts: &Counts<&'static str>, names: &[&'static str]| {
            let names = names.iter().filter(|name| !counts.contains_key(*name));
            names.map(|name| format!("pair: {name}")).collect::<Vec<String>>()
        };
        let errnos = [0, 2, 7, 18, 20, 22, 36, 40].into_iter();
        let errnos = errnos.filter(|errno| !self.answers.contains_key(errno));
        let counts = [self.scripted, self.steps[0], self.steps[1], self.differ_free];
        let none = counts.contains(&0).then(|| format!("pair: one of {counts:?}"));
        inside
            .chain(absent(&self.outside, &OUTSIDE))
            .chain(absent(&self.traits, &TRAITS))
            .chain(absent(&self.confined_by, &CONFINED_BY))
            .chain(errnos.map(|errno| format!("pair: {}", errno_name(errno))))
            .chain(none)
            .collect()
    }

    pub fn print(&self) {
        let Pairs { pairs, not_confined, common, apart, told_apart, .. } = self;
        println!(
            "pairs of tables: {pairs}, {not_confined} of them with a call that is not confined; \
             {common} have the part in common; {apart} differ in it, {told_apart} of these by the \
             answer too. What differs inside (all, and those told apart by the answer):"
        );
        for (what, (all, told)) in &self.inside {
            println!("  {what:<30} {all:>9}  {told:>9}");
        }
        println!("what else differs, where the part is in common:");
        print(&self.outside, *common);
        line(&"nothing", self.same, *common);
        line(&"the answer, were the call free", self.differ_free, *common);
        println!("what the part has in it:");
        print(&self.traits, *pairs);
        println!("what confines the call:");
        print(&self.confined_by, *pairs);
        println!("places reachable:");
        for ((_, label), count) in &self.reached {
            line(label, *count, *pairs);
        }
        println!("places stood on:");
        for ((_, label), count) in &self.stood {
            line(label, *count, *pairs);
        }
        println!("answers over the first table:");
        for (errno, count) in &self.answers {
            line(&errno_name(*errno), *count, *pairs);
        }
        let [done, refused] = self.steps;
        println!("scripts, with {done} calls done and {refused} refused:");
        print(&self.scripts, *pairs);
    }
}

fn print(counts: &Counts<&'static str>, of: u64) {
    for (name, count) in counts {
        line(name, *count, of);
    }
}
