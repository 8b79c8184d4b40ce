//! How often each answer to a lookup occurred, and after how many names compared.

use super::{errno_name, line, range};
use crate::halving::Looked;
use crate::resolver::ENOENT;
#[cfg(test)]
use crate::resolver::{EBADF, ENOTDIR, EUCLEAN};
use std::collections::BTreeMap;

/// What occurred in lookups.
#[derive(Default)]
pub struct Lookups {
    pub lookups: u64,
    pub found: u64,
    /// Names compared, in all of them.
    pub compared: u64,
    answers: BTreeMap<u64, u64>,
    /// By errno, found or absent, and by the names compared.
    counts: BTreeMap<(u64, u64), u64>,
    /// By how many names the directory had.
    sizes: BTreeMap<(u64, String), u64>,
}

impl Lookups {
    pub fn note(&mut self, count: u64, answer: &Looked) {
        let [errno, _, _, compared] = *answer;
        self.lookups += 1;
        self.found += u64::from(errno == 0);
        self.compared += compared;
        *self.answers.entry(errno).or_default() += 1;
        if errno == 0 || errno == ENOENT {
            *self.counts.entry((errno, compared)).or_default() += 1;
            let bounds = [0, 1, 2, 3, 7, 15, 31, 63, 127, 255, 511, 1023, 2047, 4095];
            *self.sizes.entry(range(count, &bounds)).or_default() += 1;
        }
    }

    /// What should occur in every run of some length and did not.
    #[cfg(test)]
    pub fn missing(&self) -> Vec<String> {
        let answers = [0, ENOENT, EBADF, ENOTDIR, EUCLEAN]
            .into_iter()
            .filter(|errno| !self.answers.contains_key(errno))
            .map(|errno| format!("lookup: {}", errno_name(errno)));
        // A directory of 4,096 names, whose count has 13 digits, is the largest.
        let found = (1..=13).map(|compared| (0, compared));
        let absent = (0..=13).map(|compared| (ENOENT, compared));
        let counts = found.chain(absent).filter(|counted| !self.counts.contains_key(counted));
        let told = |(errno, compared)| format!("{}, {compared} compared", errno_name(errno));
        answers.chain(counts.map(told)).collect()
    }

    pub fn print(&self) {
        let Lookups { lookups, compared, .. } = self;
        println!("lookups: {lookups}, {compared} names compared; by the answer:");
        for (errno, count) in &self.answers {
            line(&errno_name(*errno), *count, *lookups);
        }
        println!("lookups, by the names compared:");
        for ((errno, compared), count) in &self.counts {
            line(&format!("{}, {compared}", errno_name(*errno)), *count, *lookups);
        }
        println!("lookups, by the names in the directory:");
        for ((_, label), count) in &self.sizes {
            line(label, *count, *lookups);
        }
    }
}
