//! How often each call on descriptors and each reply to it occurred.

use super::handles::Handles;
use super::{errno_name, line};
use crate::descriptors::EMFILE;
#[cfg(test)]
use crate::descriptors::ENOTTY;
use crate::sequence::Told;
use std::collections::BTreeMap;

/// What occurred in sequences of calls on descriptors.
#[derive(Default)]
pub struct Sequences {
    pub sequences: u64,
    /// Over refused tables.
    refused: u64,
    pub steps: u64,
    /// In which all 64 were open.
    pub filled: u64,
    /// By call, errno, and whether the descriptors refused it themselves.
    replies: BTreeMap<(&'static str, u64, bool), u64>,
    /// Refused otherwise than by EMFILE though all 64 were open.
    full: BTreeMap<(&'static str, u64), u64>,
    /// Opens through marked ones, those done and those refused.
    marked: [u64; 2],
    /// Opens compared with restrictions added, and how many these stopped.
    seconds: u64,
    stopped: u64,
    /// What the numbers opened through hold.
    handles: Handles,
    /// Opens from closed numbers, by whether the path is absolute.
    closed: [u64; 2],
}

impl Sequences {
    pub fn note(&mut self, accepted: bool, told: &[Told]) {
        self.sequences += 1;
        self.refused += u64::from(!accepted);
        self.filled += u64::from(told.iter().any(|call| call.full));
        for told in told {
            self.steps += 1;
            *self.replies.entry((told.call, told.errno, told.is_own)).or_default() += 1;
            if told.full && told.errno != 0 && told.errno != EMFILE {
                *self.full.entry((told.call, told.errno)).or_default() += 1;
            }
            if told.call == "open" && told.marked {
                self.marked[usize::from(told.errno != 0)] += 1;
            }
            if let Some(tried) = &told.tried {
                self.handles.note(tried, told.errno);
            }
            if let Some(is_absolute) = told.closed {
                self.closed[usize::from(is_absolute)] += 1;
            }
            self.seconds += u64::from(told.second);
            self.stopped += u64::from(told.stopped);
        }
    }

    /// What should occur in every run of some length and did not.
    #[cfg(test)]
    pub fn missing(&self) -> Vec<String> {
        let walked = [0, 2, 7, 9, 18, 20, 22, 36, 40].map(|errno| ("open", errno, false));
        let own = [9, 22, EMFILE].map(|errno| ("open", errno, true));
        let others = [("dup", 0, false), ("close", 0, false), ("set_mark", 0, false)];
        let bad = ["dup", "close", "set_mark"].map(|call| (call, 9, true));
        let last = [("dup", EMFILE, true), ("set_mark", ENOTTY, true)];
        let replies = [&walked[..], &own, &others, &bad, &last].concat();
        let replies = replies.into_iter().filter(|reply| !self.replies.contains_key(reply));
        let full = [2, 7, 9, 18, 20, 22, 36, 40].map(|errno| ("open", errno));
        let full = [&full[..], &[("dup", 9)]].concat();
        let full = full.into_iter().filter(|reply| !self.full.contains_key(reply));
        let counts = [&[self.refused, self.filled, self.stopped][..], &self.marked, &self.closed];
        let none = counts.concat().contains(&0).then(|| format!("one of {counts:?}"));
        let replies = replies.map(|reply| format!("{reply:?}"));
        let full = full.map(|reply| format!("{reply:?}, all open"));
        let held = self.handles.missing_in_opens().into_iter().map(|held| format!("open: {held}"));
        replies.chain(full).chain(none).chain(held).collect()
    }

    pub fn print(&self) {
        let Sequences { sequences, refused, steps, filled, .. } = self;
        println!(
            "sequences on descriptors: {sequences}, {refused} of them over refused tables; \
             {filled} had all 64 open; their {steps} calls, by the reply:"
        );
        for ((call, errno, is_own), count) in &self.replies {
            let own = if *is_own || *errno == 0 { "" } else { ", resolver's" };
            let reply = if *errno == 0 { "done" } else { errno_name(*errno) };
            line(&format!("{call}: {reply}{own}"), *count, *steps);
        }
        println!("refused by another than EMFILE though all 64 were open:");
        for ((call, errno), count) in &self.full {
            line(&format!("{call}: {}", errno_name(*errno)), *count, *steps);
        }
        println!("opens through a marked one:");
        line(&"done", self.marked[0], *steps);
        line(&"refused", self.marked[1], *steps);
        self.handles.print("opens");
        println!("opens from a closed number:");
        line(&"relative", self.closed[0], *steps);
        line(&"absolute", self.closed[1], *steps);
        println!("opens once more with restrictions added:");
        line(&"as before", self.seconds - self.stopped, *steps);
        line(&"stopped", self.stopped, *steps);
    }
}
