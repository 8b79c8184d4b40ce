//! Makes a build smaller, besides what can be done with the image that its parts are.

use super::Shrinker;
use crate::build::Build;
use crate::builder::Parts;
use crate::case::Case;
use data::fields::{number_at, set, ENTRY, MOUNT, NODE};

/// The parts, each with the length of its records.
fn parts_of(parts: &mut Parts) -> [(&mut Vec<u8>, usize); 4] {
    let Parts { nodes, mounts, entries, text } = parts;
    [(nodes, NODE), (mounts, MOUNT), (entries, ENTRY), (text, 1)]
}

impl Shrinker<'_> {
    /// Fewer records and bytes, and a shorter buffer, if it is a build.
    pub(super) fn shrink_build(&mut self) {
        let Case::Build(Build { mut parts, room }) = self.best.clone() else { return };
        for shorter in [0, 20, room / 2] {
            self.attempt_build(|build| build.room = build.room.min(shorter));
        }
        let counts = parts_of(&mut parts).map(|(part, width)| part.len() / width);
        for (which, count) in counts.into_iter().enumerate() {
            self.drop_records(which, count);
            // What is cut short.
            self.attempt_build(|build| {
                let (part, width) = &mut parts_of(&mut build.parts)[which];
                part.truncate(part.len() / *width * *width);
            });
        }
        self.shorten_texts();
    }

    /// Changes the best case, if it is a build.
    fn attempt_build(&mut self, change: impl FnOnce(&mut Build)) -> bool {
        let mut candidate = self.best.clone();
        if let Case::Build(build) = &mut candidate {
            change(build);
        }
        self.attempt(candidate)
    }

    /// Changes the parts of the best case, if it is a build. The buffer stays as much longer
    /// or shorter than the image.
    fn attempt_records(&mut self, change: impl FnOnce(&mut Parts)) -> bool {
        self.attempt_build(|build| {
            let mut parts = build.parts.clone();
            change(&mut parts);
            build.room = build.with_parts(parts.clone()).room;
            build.parts = parts;
        })
    }

    /// Takes runs of records out of a part that has so many, long ones first.
    fn drop_records(&mut self, which: usize, many: usize) {
        let mut run = many;
        while run > 0 {
            let mut at = 0;
            while at < many && !self.spent() {
                let dropped = self.attempt_records(|parts| {
                    let (part, width) = &mut parts_of(parts)[which];
                    let [from, to] = [at, at + run].map(|end| (end * *width).min(part.len()));
                    part.drain(from..to);
                });
                at += if dropped { 0 } else { run };
            }
            run /= 2;
        }
    }

    /// Names and bodies of one byte, or half as long.
    fn shorten_texts(&mut self) {
        let Case::Build(Build { parts, .. }) = self.best.clone() else { return };
        let names = (0..parts.entries.len() / ENTRY).map(|entry| (2, ENTRY * entry + 4, 2));
        let links = (0..parts.nodes.len() / NODE).map(|node| (0, NODE * node + 8, 4));
        for (which, at, width) in names.chain(links) {
            if self.spent() {
                return;
            }
            let shorten = |parts: &mut Parts, shorter: fn(usize) -> usize| {
                let (part, _) = &mut parts_of(parts)[which];
                // Only links among the nodes have a length there.
                if which == 2 || number_at(part, at - 8, 2) == 3 {
                    let length = number_at(part, at, width);
                    set(part, at, width, length.min(shorter(length)));
                }
            };
            if !self.attempt_records(|parts| shorten(parts, |_| 1)) {
                self.attempt_records(|parts| shorten(parts, |length| length / 2));
            }
        }
    }
}
