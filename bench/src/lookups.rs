//! What a name in one directory costs to look up, by the C function that tells how
//! many names it compared, over an accepted table.
//!
//! The plain side is Rust's `binary_search_by` over the same bytes, by a function of
//! the same signature. It tells no number of names compared: that of Rust's search
//! is its own affair.

use crate::measure::{instructions, nanoseconds, Cost};
use crate::plain;
#[cfg(feature = "proved")]
use crate::proved;
use crate::side::Side;
use crate::walk::UNWRITTEN;
use crate::{grouped, optional, row};
use data::image::{Text, Tree};
use std::error::Error;
use std::hint::black_box;
use std::slice::{from_raw_parts, from_raw_parts_mut};
use ventolaire_sys::Lookup;

/// The answer's numbers: error number (0: found), entry, node and names compared.
pub type Numbers = [u64; 4];

/// The most that the proved side may cost of the plain one.
const BAR: f64 = 1.0;

/// A directory, the top of its tree, which names one file by all its names.
struct Directory {
    name: &'static str,
    about: &'static str,
    /// Whether the bar holds for it.
    has_bar: bool,
    names: fn(&mut Tree) -> Vec<Text>,
}

const DIRECTORIES: &[Directory] = &[
    Directory {
        name: "lookup-1",
        about: "1 name of 9 bytes",
        has_bar: true,
        names: |tree| entries(tree, 1),
    },
    Directory {
        name: "lookup-10",
        about: "10 names of 9 bytes",
        has_bar: true,
        names: |tree| entries(tree, 10),
    },
    Directory {
        name: "lookup-3000",
        about: "3,000 names of 9 bytes",
        has_bar: true,
        names: |tree| entries(tree, 3_000),
    },
    Directory {
        name: "lookup-alike",
        about: "4,096 names of 202 to 255 bytes, alike in their first 200",
        has_bar: true,
        names: |tree| alike(tree, 4_096),
    },
    Directory {
        name: "lookup-outliers",
        about: "4,094 such names, and one that comes before and one after them all",
        has_bar: false,
        names: outliers,
    },
];

/// The name that is asked for, of a directory's names.
type Asked = fn(&[Text]) -> Vec<u8>;

const ASKED: &[(&str, Asked)] = &[
    ("first", |names| names[0].bytes.clone()),
    ("second", |names| names[1.min(names.len() - 1)].bytes.clone()),
    ("middle", |names| names[names.len() / 2].bytes.clone()),
    ("last-but-one", |names| names[names.len().saturating_sub(2)].bytes.clone()),
    ("last", |names| names[names.len() - 1].bytes.clone()),
    ("before", |_| b"!".to_vec()),
    ("between", |names| [&names[names.len() / 3].bytes[..], b"!"].concat()),
    ("after", |_| b"~~".to_vec()),
];

fn entries(tree: &mut Tree, count: usize) -> Vec<Text> {
    (0..count).map(|i| tree.text(format!("entry{i:04}").as_bytes())).collect()
}

/// Names alike in their first 200 bytes, in ascending order. 76 texts have them
/// all: a shorter one is the beginning of a longer one.
pub fn alike(tree: &mut Tree, count: usize) -> Vec<Text> {
    let texts = (0..76).map(|i| format!("{}{i:02}{}", "n".repeat(200), "x".repeat(53)));
    let texts: Vec<Text> = texts.map(|text| tree.text(text.as_bytes())).collect();
    let parts = texts.iter().flat_map(|text| (202..=255).map(|len| text.part(0, len)));
    parts.take(count).collect()
}

fn outliers(tree: &mut Tree) -> Vec<Text> {
    let [first, last] = [b"a", b"z"].map(|name| tree.text(name));
    [first].into_iter().chain(alike(tree, 4_094)).chain([last]).collect()
}

/// A lookup that is measured: a table, its top directory's node, and a name.
struct Input {
    image: Vec<u8>,
    name: Vec<u8>,
}

const TOP: u64 = 0;

/// The input of a case such as `lookup-10:first`.
fn input(case: &str) -> Option<Input> {
    let (directory, asked) = case.split_once(':')?;
    let directory = DIRECTORIES.iter().find(|known| known.name == directory)?;
    let (_, asked) = ASKED.iter().find(|known| known.0 == asked)?;
    let (mut tree, top) = Tree::mounted();
    let file = tree.file();
    let names = (directory.names)(&mut tree);
    let name = asked(&names);
    for text in names {
        tree.name_again(top, text, file);
    }
    Some(Input { image: (&tree).into(), name })
}

/// An image that a side's check accepted, and the side's function for lookups.
pub struct Accepted<'a> {
    image: &'a [u8],
    lookup: Lookup,
}

impl<'a> Accepted<'a> {
    /// # Safety
    ///
    /// With this image `lookup` reads what it is lent alone and writes to the
    /// output alone.
    pub unsafe fn new(image: &'a [u8], lookup: Lookup) -> Self {
        Accepted { image, lookup: black_box(lookup) }
    }

    fn plain(image: &'a [u8]) -> Self {
        assert_eq!(plain::check(black_box(image)), Ok(()), "lookups are over accepted tables");
        // SAFETY: but for its pointers, `plain_lookup` is safe Rust.
        unsafe { Accepted::new(image, plain_lookup) }
    }

    pub fn lookup(&self, node: u64, name: &[u8]) -> Numbers {
        let mut out = [UNWRITTEN; 4];
        // SAFETY: each pointer goes with the length of a slice that outlives the
        // call; for the image, see `new`.
        unsafe {
            (self.lookup)(
                self.image.as_ptr(),
                self.image.len(),
                node,
                name.as_ptr(),
                name.len(),
                out.as_mut_ptr(),
                out.len(),
            )
        };
        out
    }
}

/// The plain side's lookup, with the signature and the writing of
/// `ventolaire_lookup_accepted`, but for the names compared.
///
/// # Safety
///
/// Each pointer goes with the length of a slice, the output's lent to be written.
unsafe extern "C" fn plain_lookup(
    image: *const u8,
    image_len: usize,
    node: u64,
    name: *const u8,
    name_len: usize,
    out: *mut u64,
    out_len: usize,
) -> usize {
    // SAFETY: the caller's word.
    let (image, name, out) = unsafe {
        (
            from_raw_parts(image, image_len),
            from_raw_parts(name, name_len),
            from_raw_parts_mut(out, out_len),
        )
    };
    let Some(out) = out.first_chunk_mut() else { return 0 };
    *out = numbers(plain::lookup_checked(image, node, name));
    out.len()
}

/// The plain side's answer in numbers; it compared no number of names that counts.
fn numbers(answer: Result<(usize, u16), plain::Errno>) -> Numbers {
    match answer {
        Ok((entry, node)) => [0, entry as u64, node.into(), 0],
        Err(errno) => [errno as u64, 0, 0, 0],
    }
}

/// All cases with what they are.
pub fn list() -> impl Iterator<Item = (String, String)> {
    let named = |directory: &Directory, asked| format!("{}:{asked}", directory.name);
    DIRECTORIES.iter().flat_map(move |directory| {
        let about = directory.about;
        ASKED.iter().map(move |(asked, _)| (named(directory, asked), format!("{about}: {asked}")))
    })
}

/// A side's table for lookups.
fn accepted(side: Side, image: &[u8]) -> Accepted<'_> {
    match side {
        Side::Plain | Side::Linear => Accepted::plain(image),
        #[cfg(feature = "proved")]
        Side::Proved => proved::lookups(image),
    }
}

/// Makes the lookup of a case so many times, if there is one of that name: the sum
/// of the answers.
pub fn run(case: &str, side: Side, calls: u64) -> Option<u64> {
    let input = input(case)?;
    Some(repeat(&accepted(side, &input.image), &input.name, calls))
}

/// Not inlined, so that both sides are called by the same instructions.
#[inline(never)]
fn repeat(table: &Accepted, name: &[u8], calls: u64) -> u64 {
    let sum = |answer: Numbers| answer.iter().fold(0, |sum: u64, &n| sum.wrapping_add(n));
    (0..calls.max(1)).fold(0, |total: u64, _| total.wrapping_add(sum(table.lookup(TOP, name))))
}

/// Measures all lookups and prints a row for each; fails where the bar is broken.
pub fn measure() -> Result<(), Box<dyn Error>> {
    row("a name of", &["plain", "proved", "ratio", "compared", "plain ns", "proved ns"]);
    row("---", &["---:"; 6]);
    let mut broken = Vec::new();
    let mut highest = 0_f64;
    for directory in DIRECTORIES {
        for (asked, _) in ASKED {
            let case = format!("{}:{asked}", directory.name);
            let Some(ratio) = measure_one(&case, directory.about)? else { continue };
            if directory.has_bar {
                highest = highest.max(ratio);
            }
            if directory.has_bar && ratio > BAR {
                broken.push(format!("{case} {ratio:.3}"));
            }
        }
    }
    println!();
    println!("Highest ratio where the bar of {BAR} holds: {highest:.3}.");
    match broken.as_slice() {
        [] => Ok(()),
        broken => Err(format!("above the bar of {BAR}: {}", broken.join(", ")).into()),
    }
}

/// Measures one case on both sides and prints its row: the ratio, where the proved
/// side takes part.
fn measure_one(case: &str, about: &str) -> Result<Option<f64>, Box<dyn Error>> {
    let input = input(case).ok_or_else(|| format!("no case {case}"))?;
    let answer = |side| accepted(side, &input.image).lookup(TOP, &input.name);
    let cost = |side: Side| -> Result<Cost, Box<dyn Error>> {
        Ok(Cost {
            instructions: instructions(&["run", case, side.name()], 50)?,
            nanoseconds: nanoseconds(|calls| {
                repeat(&accepted(side, &input.image), &input.name, calls)
            }),
        })
    };
    let plain = cost(Side::Plain)?;
    let Some(side) = Side::PROVED else {
        row(&format!("{case}: {about}"), &[grouped(plain.instructions)]);
        return Ok(None);
    };
    let (asked, expected) = (answer(side), answer(Side::Plain));
    if asked[..3] != expected[..3] {
        return Err(format!("{case}: it answers {asked:?}, plain {expected:?}").into());
    }
    let proved = cost(side)?;
    let ratio = proved.instructions / plain.instructions;
    let cells = [
        grouped(plain.instructions),
        grouped(proved.instructions),
        optional(Some(ratio), 3),
        asked[3].to_string(),
        grouped(plain.nanoseconds),
        grouped(proved.nanoseconds),
    ];
    row(&format!("{case}: {about}"), &cells);
    Ok(Some(ratio))
}
