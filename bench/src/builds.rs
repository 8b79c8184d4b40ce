//! What it costs to build an image from its parts, by the C function, beside a check of the
//! image that is written.
//!
//! Both sides are called by the same code, through a pointer to a C function, and write to the
//! same buffer again and again.

use crate::measure::{instructions, nanoseconds, Cost};
use crate::plain_build::{self, Parts, Refusal};
use crate::side::Side;
use crate::tables::{self, accepted, letters};
use crate::walk::UNWRITTEN;
use crate::{grouped, hostile, optional, row};
use data::fields::{set, Layout, NODES_AT};
use data::image::{Node, Text, Tree};
use data::worked::Build;
use data::BENCH_TREE;
use std::error::Error;
use std::hint::black_box;
use std::slice::{from_raw_parts, from_raw_parts_mut};
use ventolaire_sys::VENTOLAIRE_IMAGE_MAX;

/// The answer's numbers: error number (0: written), rule, record and bytes.
pub type Numbers = [u64; 4];

/// What a buffer is full of before a build.
const UNTOUCHED: u8 = 0xA5;

// The bars: instructions of the proved side for each byte of records and of text that it writes,
// above a check of the result, and the most that it may cost of the plain side.
const OF_RECORDS: usize = 12;
const OF_TEXT: usize = 2;
const TO_PLAIN: f64 = 1.0;

/// From so many bytes on a build counts as a full one, for which the bars hold.
const FULL: u64 = 60_000;

/// What is built, and the answer it has to get.
struct Input {
    build: Build,
    expected: Numbers,
}

struct Case {
    name: &'static str,
    about: &'static str,
    input: fn() -> Input,
}

const CASES: &[Case] = &[
    Case {
        name: "build-small",
        about: "the smallest image",
        input: || written(&Tree::mounted().0),
    },
    Case { name: "build-bench", about: "the bench tree", input: bench_tree },
    Case {
        name: "build-full",
        about: "4,096 entries with short names",
        input: || written(&tables::many_entries()),
    },
    Case {
        name: "build-full-long",
        about: "names of 250 bytes, alike for the first half",
        input: || written(&tables::long_names()),
    },
    Case {
        name: "build-full-links",
        about: "3,000 symbolic links with bodies of 1 to 18 bytes",
        input: || written(&tables::many_links()),
    },
    Case {
        name: "build-full-bodies",
        about: "16 symbolic links with bodies of 4,060 bytes",
        input: || written(&long_bodies()),
    },
    Case {
        name: "build-full-mounts",
        about: "256 mounts, all in mount 0",
        input: || written(&tables::many_mounts()),
    },
    Case {
        name: "build-full-nodes",
        about: "a chain of 4,096 directories, 1,800 of them with a name of one byte",
        input: || written(&hostile::chain(1_800).0),
    },
    Case {
        name: "build-shared",
        about: "1,536 names of 1 to 64 bytes that share one text of 64",
        input: || written(&shared_names()),
    },
    Case {
        name: "build-refused-node",
        about: "3,000 symbolic links: refused at the last",
        input: refused_node,
    },
    Case {
        name: "build-refused-entry",
        about: "4,096 entries with short names: refused at the last",
        input: refused_entry,
    },
    Case {
        name: "build-refused-target",
        about: "2,048 magic links over 256 mounts: refused at the last",
        input: refused_target,
    },
    Case {
        name: "build-too-long",
        about: "4,095 symbolic links with bodies of 4,095 bytes that overlap: refused by rule 1",
        input: || broken(written(&hostile::bodies()), 1, 0),
    },
    Case {
        name: "build-short",
        about: "as build-full, the buffer one byte too short",
        input: || short(written(&tables::many_entries()), 1),
    },
    Case {
        name: "build-hostile-names",
        about: "240 names of 255 bytes, alike but for the last byte",
        input: || written(&hostile::names(240)),
    },
    Case {
        name: "build-hostile-slashes",
        about: "1,600 names of 31 bytes, a slash between any two in the caller's text",
        input: || written(&hostile::names_between_slashes(1_600, 31)),
    },
    Case {
        name: "build-hostile-zeros",
        about: "1,800 symbolic links with bodies of 23 bytes, a zero byte between any two",
        input: || written(&hostile::bodies_before_zeros(1_800, 1_800, 23)),
    },
    Case {
        name: "build-hostile-points",
        about: "255 mount points at the end of a chain of 4,096 directories",
        input: || written(&hostile::points(1_550)),
    },
    Case {
        name: "build-hostile-magic",
        about: "2,048 magic links over 256 mounts of a chain of 2,048 directories",
        input: || written(&tables::magic_links(1_550)),
    },
    Case {
        name: "build-hostile-text",
        about: "the bench tree, and 1 MiB of letters that nothing uses",
        input: || behind(bench_tree(), &letters(1 << 20)),
    },
    Case {
        name: "build-hostile-text-zeros",
        about: "the bench tree, and 1 MiB of zero bytes that nothing uses",
        input: || behind(bench_tree(), &vec![0; 1 << 20]),
    },
    Case {
        name: "build-hostile-text-full",
        about: "as build-full, and 1 MiB of letters that nothing uses",
        input: || behind(written(&tables::many_entries()), &letters(1 << 20)),
    },
];

/// The parts of an image, and a buffer that any image has room in.
pub fn parts_of(image: &[u8]) -> Build {
    let Layout { mounts_at, entries_at, text_at, .. } = Layout::of(image);
    let part = |from: usize, to: usize| image.get(from..to).unwrap_or_default().to_vec();
    Build {
        nodes: part(NODES_AT, mounts_at),
        mounts: part(mounts_at, entries_at),
        entries: part(entries_at, text_at),
        text: part(text_at, image.len()),
        room: VENTOLAIRE_IMAGE_MAX as u64,
        written: Vec::new(),
    }
}

/// A build of a tree that keeps all rules.
fn written(tree: &Tree) -> Input {
    let build = parts_of(&tree.image());
    let lengths = tree.nodes.iter().map(|node| match node {
        Node::Directory { entries, .. } => entries.iter().map(|entry| entry.name.len()).sum(),
        Node::Link(body) => body.len(),
        _ => 0,
    });
    let bytes = NODES_AT + records(&build) + lengths.sum::<usize>();
    Input { build, expected: [0, 0, 0, bytes as u64] }
}

fn bench_tree() -> Input {
    Input { build: parts_of(BENCH_TREE), expected: [0, 0, 0, BENCH_TREE.len() as u64] }
}

fn broken(input: Input, rule: u64, record: u64) -> Input {
    Input { expected: [117, rule, record, 0], ..input }
}

/// The same with a buffer that lacks so many bytes.
fn short(mut input: Input, lacks: u64) -> Input {
    let [.., bytes] = input.expected;
    input.build.room = bytes - lacks;
    Input { expected: [34, 0, 0, bytes], ..input }
}

/// The same with more text behind what is used.
fn behind(mut input: Input, text: &[u8]) -> Input {
    input.build.text.extend(text);
    input
}

fn long_bodies() -> Tree {
    let (mut tree, _) = Tree::mounted();
    for _ in 0..16 {
        tree.link(letters(4_060));
    }
    tree
}

/// In each of 24 directories all beginnings of one text.
fn shared_names() -> Tree {
    let (mut tree, top) = Tree::mounted();
    let file = tree.file();
    let directories: Vec<usize> = (0..24).map(|_| tree.directory(top)).collect();
    let all: Text = tree.text(&letters(64));
    for directory in directories {
        for len in 1..=all.len() {
            tree.name_again(directory, all.part(0, len), file);
        }
    }
    tree
}

/// The last link has a parent.
fn refused_node() -> Input {
    let mut input = written(&tables::many_links());
    set(&mut input.build.nodes, 12 * 3_000 + 2, 2, 1);
    broken(input, 4, 3_000)
}

/// The last entry's node is not there.
fn refused_entry() -> Input {
    let mut input = written(&tables::many_entries());
    set(&mut input.build.entries, 8 * 4_095 + 6, 2, 4_095);
    broken(input, 5, 4_095)
}

/// The last link's mount is not there.
fn refused_target() -> Input {
    let mut input = written(&tables::magic_links(1_550));
    set(&mut input.build.nodes, 12 * 4_095 + 4, 4, 256);
    broken(input, 7, 4_095)
}

fn records(build: &Build) -> usize {
    build.nodes.len() + build.mounts.len() + build.entries.len()
}

/// A side's function that builds.
#[derive(Clone, Copy)]
pub struct Builder(ventolaire_sys::Build);

impl Builder {
    pub fn of(side: Side) -> Builder {
        let build: ventolaire_sys::Build = match side {
            // The linear side is plain but for the table check.
            Side::Plain | Side::Linear => plain_build,
            #[cfg(feature = "proved")]
            Side::Proved => ventolaire_sys::ventolaire_build,
        };
        Builder(black_box(build))
    }

    pub fn build(&self, parts: &Build, buffer: &mut [u8]) -> Numbers {
        let mut out = [UNWRITTEN; 4];
        // SAFETY: each pointer goes with the length of a slice that outlives the call; either
        // function takes any bytes, and writes to the buffer and to `out` alone.
        unsafe {
            (self.0)(
                parts.nodes.as_ptr(),
                parts.nodes.len(),
                parts.mounts.as_ptr(),
                parts.mounts.len(),
                parts.entries.as_ptr(),
                parts.entries.len(),
                parts.text.as_ptr(),
                parts.text.len(),
                buffer.as_mut_ptr(),
                buffer.len(),
                out.as_mut_ptr(),
                out.len(),
            )
        };
        out
    }
}

/// The plain side's builder, with the signature and the writing of `ventolaire_build`.
///
/// # Safety
///
/// Each pointer goes with the length of a slice, those of the buffer and of the output lent to be
/// written.
#[allow(clippy::too_many_arguments)] // as many as the library's has
unsafe extern "C" fn plain_build(
    nodes: *const u8,
    nodes_len: usize,
    mounts: *const u8,
    mounts_len: usize,
    entries: *const u8,
    entries_len: usize,
    text: *const u8,
    text_len: usize,
    buffer: *mut u8,
    buffer_len: usize,
    out: *mut u64,
    out_len: usize,
) -> usize {
    // SAFETY: the caller's word.
    let (parts, buffer, out) = unsafe {
        let parts = Parts {
            nodes: from_raw_parts(nodes, nodes_len),
            mounts: from_raw_parts(mounts, mounts_len),
            entries: from_raw_parts(entries, entries_len),
            text: from_raw_parts(text, text_len),
        };
        (parts, from_raw_parts_mut(buffer, buffer_len), from_raw_parts_mut(out, out_len))
    };
    let Some(out) = out.first_chunk_mut() else { return 0 };
    *out = numbers(plain_build::build(parts, buffer));
    out.len()
}

/// The plain side's answer in numbers.
fn numbers(answer: Result<usize, Refusal>) -> Numbers {
    let refusal = match answer {
        Ok(bytes) => return [0, 0, 0, bytes as u64],
        Err(refusal) => refusal,
    };
    let errno = refusal.errno() as u64;
    match refusal {
        Refusal::Broken(broken) => [errno, broken.rule.into(), broken.record.into(), 0],
        Refusal::Short(bytes) => [errno, 0, 0, bytes as u64],
    }
}

/// A side's answer, and the image that it wrote; none if it is refused. The error is what the
/// buffer has besides.
pub fn built(side: Side, parts: &Build) -> (Numbers, Result<Vec<u8>, Vec<u8>>) {
    // Room behind the buffer, which must stay as it is.
    let room = parts.room as usize;
    let mut buffer = vec![UNTOUCHED; room + 64];
    let answer = Builder::of(side).build(parts, &mut buffer[..room]);
    let bytes = if answer[0] == 0 { answer[3] as usize } else { 0 };
    match buffer.split_at_checked(bytes) {
        Some((image, rest)) if rest.iter().all(|byte| *byte == UNTOUCHED) => {
            (answer, Ok(image.to_vec()))
        }
        _ => (answer, Err(buffer)),
    }
}

fn input(case: &str) -> Option<Input> {
    CASES.iter().find(|known| known.name == case).map(|known| (known.input)())
}

/// The image that an input is built to.
fn image(input: &Input) -> Vec<u8> {
    built(Side::Plain, &input.build).1.unwrap_or_default()
}

/// All cases with what they are.
pub fn list() -> impl Iterator<Item = (String, String)> {
    CASES.iter().map(|case| (case.name.to_string(), case.about.to_string()))
}

/// Makes the build of a case so many times, or with `:check` behind its name checks the image
/// that it is built to; the sum of the answers, if there is a case of that name.
pub fn run(case: &str, side: Side, calls: u64) -> Option<u64> {
    if let Some(case) = case.strip_suffix(":check") {
        return Some(side.run(&accepted(image(&input(case)?)), calls));
    }
    Some(repeat(side, &input(case)?.build, calls))
}

/// Not inlined, so that both sides are called by the same instructions.
#[inline(never)]
fn repeat(side: Side, parts: &Build, calls: u64) -> u64 {
    let builder = Builder::of(side);
    let mut buffer = vec![UNTOUCHED; parts.room as usize];
    let sum = |answer: Numbers| answer.iter().fold(0, |sum: u64, &n| sum.wrapping_add(n));
    (0..calls.max(1))
        .fold(0, |total: u64, _| total.wrapping_add(sum(builder.build(parts, &mut buffer))))
}

/// Measures all builds and prints a row for each; fails where a bar is broken.
pub fn measure() -> Result<(), Box<dyn Error>> {
    let heads = [
        "bytes",
        "proved",
        "plain",
        "ratio",
        "check of the result",
        "bar",
        "used",
        "plain ns",
        "proved ns",
    ];
    row("a build of", &heads);
    row("---", &["---:"; 9]);
    let mut most = Most::default();
    for case in CASES {
        let measured = Measured::of(case)?;
        row(&format!("{}: {}", case.name, case.about), &measured.cells());
        most.take(case.name, &measured);
    }
    most.tell()
}

/// What a case costs.
struct Measured {
    /// Of the image; none if it is refused.
    bytes: Option<u64>,
    plain: Cost,
    proved: Option<Cost>,
    /// Instructions of a check of the image, and those of a build that the bar allows.
    check: Option<f64>,
    bar: Option<f64>,
}

impl Measured {
    fn of(case: &Case) -> Result<Measured, Box<dyn Error>> {
        let input = (case.input)();
        for side in [Some(Side::Plain), Side::PROVED].into_iter().flatten() {
            answers_rightly(case.name, &input, side)?;
        }
        let cost = |side: Side| {
            let nanoseconds = nanoseconds(|calls| repeat(side, &input.build, calls));
            let instructions = instructions(&["run", case.name, side.name()], more(nanoseconds))?;
            Ok::<_, Box<dyn Error>>(Cost { instructions, nanoseconds })
        };
        let bytes = (input.expected[0] == 0).then_some(input.expected[3]);
        let check = match (Side::PROVED, bytes) {
            (Some(side), Some(_)) => {
                Some(instructions(&["run", &format!("{}:check", case.name), side.name()], 50)?)
            }
            _ => None,
        };
        let records = NODES_AT + records(&input.build);
        let allowed = |bytes: u64| OF_RECORDS * records + OF_TEXT * (bytes as usize - records);
        let bar = check.zip(bytes).map(|(check, bytes)| check + allowed(bytes) as f64);
        let (plain, proved) = (cost(Side::Plain)?, Side::PROVED.map(cost).transpose()?);
        Ok(Measured { bytes, plain, proved, check, bar })
    }

    fn proved(&self) -> Option<f64> {
        self.proved.as_ref().map(|cost| cost.instructions)
    }

    fn ratio(&self) -> Option<f64> {
        Some(self.proved()? / self.plain.instructions)
    }

    /// What part of the bar is used.
    fn used(&self) -> Option<f64> {
        Some(self.proved()? / self.bar?)
    }

    fn cells(&self) -> [String; 9] {
        let whole = |figure: Option<f64>| figure.map_or("-".into(), grouped);
        [
            whole(self.bytes.map(|bytes| bytes as f64)),
            whole(self.proved()),
            grouped(self.plain.instructions),
            optional(self.ratio(), 3),
            whole(self.check),
            whole(self.bar),
            optional(self.used(), 3),
            grouped(self.plain.nanoseconds),
            whole(self.proved.as_ref().map(|cost| cost.nanoseconds)),
        ]
    }
}

/// As many calls as take about a millisecond outside valgrind.
fn more(nanoseconds: f64) -> u64 {
    (1e6 / nanoseconds).clamp(4.0, 1_000.0) as u64
}

/// The error tells what a side does otherwise than it should.
fn answers_rightly(case: &str, input: &Input, side: Side) -> Result<(), String> {
    let (answer, image) = built(side, &input.build);
    let name = side.name();
    if answer != input.expected {
        return Err(format!("{case}: {name} answers {answer:?}, not {:?}", input.expected));
    }
    if image.as_ref() != Ok(&self::image(input)) {
        return Err(format!("{case}: {name} leaves another buffer than plain"));
    }
    Ok(())
}

/// The highest figures of full builds, and what is above a bar.
#[derive(Default)]
struct Most {
    ratio: f64,
    used: f64,
    broken: Vec<String>,
}

impl Most {
    fn take(&mut self, case: &str, measured: &Measured) {
        let is_full = measured.bytes.is_some_and(|bytes| bytes >= FULL);
        let (Some(ratio), Some(used), true) = (measured.ratio(), measured.used(), is_full) else {
            return;
        };
        self.ratio = self.ratio.max(ratio);
        self.used = self.used.max(used);
        if ratio > TO_PLAIN || used > 1.0 {
            self.broken.push(format!("{case} (ratio {ratio:.3}, used {used:.3})"));
        }
    }

    fn tell(&self) -> Result<(), Box<dyn Error>> {
        if Side::PROVED.is_none() {
            return Ok(());
        }
        let Most { ratio, used, broken } = self;
        println!();
        println!(
            "Most of the full builds, {} bytes and more: {ratio:.3} of plain (bar {TO_PLAIN}), \
             {used:.3} of a check of the result with {OF_RECORDS} for each byte of records and \
             {OF_TEXT} for each of text.",
            grouped(FULL as f64)
        );
        match broken.as_slice() {
            [] => Ok(()),
            broken => Err(format!("above a bar: {}", broken.join(", ")).into()),
        }
    }
}

#[cfg(test)]
mod tests {
    use super::*;
    use crate::plain;

    #[test]
    fn every_side_answers_as_expected() {
        for case in CASES {
            let input = (case.input)();
            for side in [Some(Side::Plain), Side::PROVED].into_iter().flatten() {
                answers_rightly(case.name, &input, side).unwrap();
            }
            let [errno, .., bytes] = input.expected;
            let is_full = case.name.contains("-full") || case.name.contains("-hostile-");
            let is_small = case.about.starts_with("the bench tree");
            if is_full && !is_small {
                assert!((FULL..=65_536).contains(&bytes), "{}: {bytes}", case.name);
            }
            if errno == 0 {
                let image = image(&input);
                assert_eq!(plain::check(&image), Ok(()), "{}", case.name);
                // What was read from a built image is built to the same bytes.
                let again = Input { build: parts_of(&image), expected: input.expected };
                assert_eq!(self::image(&again), image, "{}", case.name);
            }
        }
    }

    #[test]
    fn cases_run_by_their_names() {
        for (case, _) in list() {
            let [one, three] = [1, 3].map(|calls| run(&case, Side::Plain, calls).unwrap());
            assert_eq!(one.wrapping_mul(3), three, "{case}");
        }
        assert_eq!(run("build-bench:check", Side::Plain, 2), Some(0));
        assert!(run("build-none", Side::Plain, 1).is_none());
        assert!(run("build-none:check", Side::Plain, 1).is_none());
    }

    #[test]
    fn with_no_room_for_the_answer_nothing_is_written() {
        let parts = parts_of(BENCH_TREE);
        let (mut buffer, mut out) = ([UNTOUCHED; 400], [UNWRITTEN; 3]);
        // SAFETY: as in `Builder::build`.
        let numbers = unsafe {
            plain_build(
                parts.nodes.as_ptr(),
                parts.nodes.len(),
                parts.mounts.as_ptr(),
                parts.mounts.len(),
                parts.entries.as_ptr(),
                parts.entries.len(),
                parts.text.as_ptr(),
                parts.text.len(),
                buffer.as_mut_ptr(),
                buffer.len(),
                out.as_mut_ptr(),
                out.len(),
            )
        };
        assert_eq!((numbers, out, buffer), (0, [UNWRITTEN; 3], [UNTOUCHED; 400]));
    }
}
