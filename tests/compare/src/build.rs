//! A build of an image from its parts, and its comparison.

use crate::builder::{build, check_as_written, written_length, Built, Numbers, Parts};
use crate::case::{same, Alike, Call, Case, Difference};
use crate::generate::{call, question, relaid};
use crate::halving::lookup_in;
use crate::lookup::{Lookup, ACCEPTED};
use crate::resolver::{accept, Table, LINK};
use crate::subject::Subject;
use crate::tree;
use data::dice::Dice;
use data::fields::{ENTRY, MOUNT, NODE};
use data::worked::build_arguments;
use std::fmt;

#[derive(Clone, Debug, PartialEq, Eq)]
pub struct Build {
    pub parts: Parts,
    /// How long the buffer is.
    pub room: usize,
}

/// The longest buffer that is given: sixteen times as long as an image can be.
pub const MOST_ROOM: usize = 1 << 20;

/// How many numbers an answer has.
const ROOM: usize = 4;

/// Outputs that are too short, and one that has room behind the answer.
const OTHER_ROOMS: [usize; 3] = [0, ROOM - 1, ROOM + 2];

/// What is asked of a written image, and of the one that its parts are as they stand.
const CALLS: usize = 3;
const LOOKUPS: usize = 3;

/// What occurred in a build, for the statistics.
pub struct Told {
    pub numbers: Numbers,
    pub room: usize,
    /// Whole nodes, mounts and entries.
    pub counts: [usize; 3],
    /// How long the image would be.
    pub length: u64,
    /// Bytes behind the last whole one of each.
    pub cut: [usize; 3],
    /// A name or a body reaches outside of the text.
    pub is_outside: [bool; 2],
    /// What was asked of the written image and of another one of the same tree.
    pub asked: usize,
}

/// The build as the arguments of `compare replay`.
impl fmt::Display for Build {
    fn fmt(&self, f: &mut fmt::Formatter) -> fmt::Result {
        let Parts { nodes, mounts, entries, text } = &self.parts;
        f.write_str(&build_arguments(nodes, mounts, entries, text, self.room as u64))
    }
}

impl Build {
    pub fn compare(&self, subject: &mut dyn Subject) -> Result<Alike, Difference> {
        let built = self.expected();
        self.as_the_check_says(&built.numbers)?;
        let mut asking = Asking::of(self, &built, subject);
        asking.ask("build", ROOM)?;
        for room in OTHER_ROOMS {
            asking.ask(&format!("build with room for {room}"), room)?;
        }
        let asked = match built.numbers[0] {
            0 => self.round_trip(subject, &built.image)?,
            _ => 0,
        };
        Ok(Alike::Build(self.told(built.numbers, asked)))
    }

    pub fn expected(&self) -> Built {
        build(&self.parts, self.room as u64)
    }

    /// Other parts, of which records are cut as short, in a buffer that is as much longer or
    /// shorter than the image.
    pub fn with_parts(&self, mut parts: Parts) -> Build {
        let [before, after] = [&self.parts, &parts].map(|parts| written_length(&parts.table()));
        let room = (self.room as u64).saturating_add(after).saturating_sub(before);
        for (part, old, width) in [
            (&mut parts.nodes, &self.parts.nodes, NODE),
            (&mut parts.mounts, &self.parts.mounts, MOUNT),
            (&mut parts.entries, &self.parts.entries, ENTRY),
        ] {
            part.extend(&old[old.len() / width * width..]);
        }
        Build { parts, room: room.min(MOST_ROOM as u64) as usize }
    }

    /// The numbers that the subject answers, and behind them a 1 if it does not leave the
    /// buffer with this image and else as it was; and whether it left the parts so.
    pub fn got(&self, subject: &mut dyn Subject, image: &[u8]) -> (Vec<u64>, bool) {
        let mut lent = self.parts.clone();
        let mut buffer = self.canaries();
        let after = with(&buffer, image);
        let mut numbers = subject.build(&mut lent, &mut buffer, ROOM);
        if buffer != after {
            numbers.push(1);
        }
        (numbers, lent == self.parts)
    }

    /// Numbers that hang on the build alone, so that it can be replayed.
    fn dice(&self) -> Dice {
        let Parts { nodes, mounts, entries, text } = &self.parts;
        let mut seed = self.room as u64;
        for part in [nodes, mounts, entries, text] {
            let bytes = part.iter().take(256).map(|byte| u64::from(*byte));
            let numbers = bytes.chain([part.len() as u64]);
            seed = numbers.fold(seed, |sum, number| sum.rotate_left(7) ^ number);
        }
        Dice::of(seed)
    }

    /// The buffer before the build.
    fn canaries(&self) -> Vec<u8> {
        let mut dice = self.dice();
        let mut bytes: Vec<u8> =
            (0..self.room.div_ceil(8)).flat_map(|_| dice.roll().to_le_bytes()).collect();
        bytes.truncate(self.room);
        bytes
    }

    /// The comparing builder against the check of the image as it would be written.
    fn as_the_check_says(&self, numbers: &Numbers) -> Result<(), Difference> {
        let [_, rule, record, _] = *numbers;
        match check_as_written(&self.parts) {
            None => Ok(()),
            Some(checked) => {
                let what = "the comparing builder: rule and record of the image as written";
                same(what, &checked, vec![rule, record])
            }
        }
    }

    /// What holds of a written image. How many calls and lookups were asked of it.
    fn round_trip(&self, subject: &mut dyn Subject, image: &[u8]) -> Result<usize, Difference> {
        same("the check of a written image", &[0, 0], subject.check(&mut image.to_vec()))?;
        let is_same_tree = accept(image).is_ok_and(|read| {
            // "Reading back gives the same tree"
            tree::of(&read) == tree::of(&self.parts.table())
        });
        same("the comparing builder: the tree read back", &[1], vec![u64::from(is_same_tree)])?;
        let again = Parts::of(image);
        writes(subject, "what was read from a built image, written", &again, image)?;
        let mut dice = self.dice();
        let other = relaid(&mut dice, &self.parts);
        writes(subject, "the same tree from another text", &other, image)?;
        // Of the image that the parts were cut off, or would be.
        let source = self.parts.as_they_are();
        match accept(&source) {
            Ok(table) => answers_alike(subject, &mut dice, (&source, &table), image),
            Err(_) => Ok(0),
        }
    }

    fn told(&self, numbers: Numbers, asked: usize) -> Told {
        let tree = self.parts.table();
        let mut links = tree.nodes.iter().filter(|node| node.kind == LINK);
        let is_outside = [
            tree.entries.iter().any(|entry| tree.name(entry).is_none()),
            links.any(|link| tree.text_part(link.first, link.count).is_none()),
        ];
        Told {
            numbers,
            room: self.room,
            counts: [tree.nodes.len(), tree.mounts.len(), tree.entries.len()],
            length: written_length(&tree),
            cut: self.parts.behind_whole_records(),
            is_outside,
            asked,
        }
    }
}

/// "bytes beyond an image are not touched", and without an image none at all.
fn with(buffer: &[u8], image: &[u8]) -> Vec<u8> {
    [image, buffer.get(image.len()..).unwrap_or_default()].concat()
}

/// A build that a subject is asked for.
struct Asking<'a> {
    subject: &'a mut dyn Subject,
    parts: &'a Parts,
    numbers: &'a Numbers,
    /// The buffer before and after.
    before: Vec<u8>,
    after: Vec<u8>,
    /// What it is lent, which must stay as it is.
    lent: Parts,
}

impl<'a> Asking<'a> {
    fn of(build: &'a Build, built: &'a Built, subject: &'a mut dyn Subject) -> Asking<'a> {
        let before = build.canaries();
        let after = with(&before, &built.image);
        let (parts, numbers) = (&build.parts, &built.numbers);
        Asking { subject, parts, numbers, before, after, lent: parts.clone() }
    }

    /// With an output that has room for so many numbers.
    fn ask(&mut self, what: &str, room: usize) -> Result<(), Difference> {
        let mut buffer = self.before.clone();
        let got = self.subject.build(&mut self.lent, &mut buffer, room);
        let (numbers, after) = match room < ROOM {
            true => (&[][..], &self.before),
            false => (&self.numbers[..], &self.after),
        };
        same(what, numbers, got)?;
        same_bytes(what, after, &buffer)?;
        let (lent, parts) = (&self.lent, self.parts);
        let changed = [
            lent.nodes != parts.nodes,
            lent.mounts != parts.mounts,
            lent.entries != parts.entries,
            lent.text != parts.text,
        ];
        let what = "lent bytes were changed (nodes, mounts, entries, text)";
        same(what, &[0; 4], changed.map(u64::from).to_vec())
    }
}

/// The bytes of a buffer; a difference tells the first byte that is another.
fn same_bytes(what: &str, expected: &[u8], got: &[u8]) -> Result<(), Difference> {
    let Some(at) = expected.iter().zip(got).position(|(one, two)| one != two) else {
        let lengths = [expected, got].map(|bytes| bytes.len() as u64);
        return same(&format!("{what}: bytes"), &lengths[..1], lengths[1..].to_vec());
    };
    let byte = |bytes: &[u8]| u64::from(bytes[at]);
    same(&format!("{what}: byte {at} of the buffer"), &[byte(expected)], vec![byte(got)])
}

/// These parts give the same image, in a buffer that just holds it.
fn writes(
    subject: &mut dyn Subject,
    what: &str,
    parts: &Parts,
    image: &[u8],
) -> Result<(), Difference> {
    let mut buffer = vec![0; image.len()];
    let got = subject.build(&mut parts.clone(), &mut buffer, ROOM);
    same(what, &[0, 0, 0, image.len() as u64], got)?;
    same_bytes(what, image, &buffer)
}

/// Two images of one tree have the same answers: some calls and lookups. How many.
fn answers_alike(
    subject: &mut dyn Subject,
    dice: &mut Dice,
    (source, table): (&[u8], &Table),
    image: &[u8],
) -> Result<usize, Difference> {
    for _ in 0..CALLS {
        let call = Call { image: image.to_vec(), ..call(dice, source, Some(table)) };
        let expected = call.answer_over(Some(table)).0.numbers();
        same("a call on the written image", &expected, call.ask(subject))
            .map_err(|difference| difference.of(&Case::Call(call)))?;
    }
    for _ in 0..LOOKUPS {
        let (node, mut name) = question(dice, Some(table));
        let expected = lookup_in(Some(table), node, &name);
        let mut image = image.to_vec();
        let got = subject.lookup(&mut image, node, &mut name, ACCEPTED);
        same("a lookup in the written image", &expected, got)
            .map_err(|difference| difference.of(&Case::Lookup(Lookup { image, node, name })))?;
    }
    Ok(CALLS + LOOKUPS)
}

#[cfg(test)]
mod tests;
