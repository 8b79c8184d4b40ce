//! How often each answer to a build occurred, with what decides it.

use super::{errno_name, line, range};
use crate::build::Told;
use crate::builder::ERANGE;
#[cfg(test)]
use crate::builder::LONGEST_IMAGE;
#[cfg(test)]
use crate::resolver::EUCLEAN;
use std::collections::BTreeMap;

/// What occurred in builds.
#[derive(Default)]
pub struct Builds {
    pub builds: u64,
    pub written: u64,
    /// By errno and rule, and by whether it is charged to a later record than 0.
    answers: BTreeMap<(u64, u64, bool), u64>,
    /// By how much longer the buffer is than the image, from -2 to 2.
    rooms: BTreeMap<i64, u64>,
    /// By the rule broken: a name outside, a body outside, and a record cut short.
    outside: BTreeMap<(u64, &'static str), u64>,
    /// Bytes behind the last whole record, by its kind.
    cuts: BTreeMap<(&'static str, usize), u64>,
    /// Whole records, by their kind; only counts at limits.
    counts: BTreeMap<(&'static str, usize), u64>,
    /// By the length as written, at the limit.
    lengths: BTreeMap<(u64, bool), u64>,
    sizes: BTreeMap<(u64, String), u64>,
    /// Written images that were asked for the same as another one of the tree.
    asked: u64,
}

const KINDS: [&str; 3] = ["nodes", "mounts", "entries"];

/// Counts of records that are told; those above 65,535 as one.
const COUNTS: [usize; 10] = [0, 1, 255, 256, 257, 4095, 4096, 4097, 65_535, 65_536];

impl Builds {
    pub fn note(&mut self, told: &Told) {
        let [errno, rule, record, bytes] = told.numbers;
        self.builds += 1;
        self.written += u64::from(errno == 0);
        self.asked += u64::from(told.asked > 0);
        *self.answers.entry((errno, rule, record > 0)).or_default() += 1;
        if errno == 0 || errno == ERANGE {
            let longer = told.room as i64 - bytes as i64;
            *self.rooms.entry(longer.clamp(-2, 2)).or_default() += 1;
        }
        if errno == 0 {
            let bounds = [40, 100, 300, 1_000, 3_000, 10_000, 30_000, 65_535];
            *self.sizes.entry(range(bytes, &bounds)).or_default() += 1;
        }
        let [name, body] = told.is_outside;
        let is_cut = told.cut != [0, 0, 0];
        for (is_so, what) in [(name, "name"), (body, "body"), (is_cut, "cut")] {
            if is_so {
                *self.outside.entry((rule, what)).or_default() += 1;
            }
        }
        for (kind, bytes) in KINDS.into_iter().zip(told.cut) {
            *self.cuts.entry((kind, bytes)).or_default() += 1;
        }
        for (kind, count) in KINDS.into_iter().zip(told.counts) {
            if COUNTS.contains(&count.min(65_536)) {
                *self.counts.entry((kind, count.min(65_536))).or_default() += 1;
            }
        }
        if (65_535..=65_537).contains(&told.length) {
            *self.lengths.entry((told.length, errno == 0)).or_default() += 1;
        }
    }

    /// What should occur in every run of some length and did not.
    #[cfg(test)]
    pub fn missing(&self) -> Vec<String> {
        let first = [1, 3, 4, 5, 6, 7].map(|rule| (EUCLEAN, rule, false));
        let later = [4, 5, 6, 7].map(|rule| (EUCLEAN, rule, true));
        let answers = [&[(0, 0, false), (ERANGE, 0, false)], &first[..], &later].concat();
        let answers = answers.into_iter().filter(|answer| !self.answers.contains_key(answer));
        let rooms = (-2..=2).filter(|room| !self.rooms.contains_key(room));
        // Outside of the text, every rule up to that which this breaks.
        let names = [1, 3, 4, 5].map(|rule| (rule, "name"));
        let outside =
            [&names[..], &[1, 3, 4].map(|rule| (rule, "body")), &[(1, "cut"), (3, "cut")]];
        let outside = outside.concat().into_iter().filter(|one| !self.outside.contains_key(one));
        let cuts = KINDS.into_iter().zip([12, 8, 8]);
        let cuts = cuts.flat_map(|(kind, width)| (0..width).map(move |bytes| (kind, bytes)));
        let cuts = cuts.filter(|cut| !self.cuts.contains_key(cut));
        let counts = KINDS.into_iter().flat_map(|kind| COUNTS.map(|count| (kind, count)));
        let counts = counts.filter(|count| !self.counts.contains_key(count));
        let [most, less, more] = [0, -1, 1].map(|by| LONGEST_IMAGE.saturating_add_signed(by));
        let lengths = [(most, true), (most, false), (less, true), (more, false)];
        let lengths = lengths.into_iter().filter(|length| !self.lengths.contains_key(length));
        let told = answers.map(|answer| format!("build: {answer:?}"));
        told.chain(rooms.map(|room| format!("build, room: {room}")))
            .chain(outside.map(|one| format!("build, rule and what is outside: {one:?}")))
            .chain(cuts.map(|cut| format!("build, cut short: {cut:?}")))
            .chain(counts.map(|count| format!("build: {count:?}")))
            .chain(lengths.map(|length| format!("build, length and written: {length:?}")))
            .chain((self.asked == 0).then(|| "build: nothing asked".into()))
            .collect()
    }

    pub fn print(&self) {
        let Builds { builds, asked, .. } = self;
        println!("builds: {builds}, of {asked} the image was asked as the tree; by the answer:");
        for ((errno, rule, is_later), count) in &self.answers {
            let answer = match (*errno, *rule, is_later) {
                (0, _, _) => "written".into(),
                (ERANGE, _, _) => errno_name(*errno).into(),
                (_, 0..=3, _) => format!("rule {rule}"),
                (_, _, false) => format!("rule {rule} record 0"),
                (_, _, true) => format!("rule {rule} later record"),
            };
            line(&answer, *count, *builds);
        }
        println!("good trees, by how much longer the buffer is than the image:");
        for (longer, count) in &self.rooms {
            let more = if longer.abs() == 2 { " and more" } else { "" };
            line(&format!("{longer}{more}"), *count, *builds);
        }
        println!("name or body outside, or record cut short, by the rule broken:");
        for ((rule, what), count) in &self.outside {
            line(&format!("{what}: rule {rule}"), *count, *builds);
        }
        println!("counts of records:");
        for ((kind, count), times) in &self.counts {
            let more = if *count == 65_536 { " and more" } else { "" };
            line(&format!("{count} {kind}{more}"), *times, *builds);
        }
        println!("images, by bytes:");
        for ((_, label), count) in &self.sizes {
            line(label, *count, *builds);
        }
    }
}
