//! What calls on descriptors cost, with few and with nearly all of the 64 open.
//!
//! Both sides are called by the same code, through pointers to C functions. After
//! each call the one slot that it changed is put back, so that all calls find the
//! same descriptors.

use crate::measure::{instructions, nanoseconds, Cost};
use crate::plain::{self, O_DIRECTORY};
#[cfg(feature = "proved")]
use crate::proved;
use crate::side::Side;
use crate::slots::{self, Reply, Slots};
use crate::tables::LAB;
use crate::walk::{plain_resolve, UNWRITTEN};
use crate::{grouped, optional, row};
use data::sequence::Step;
use data::{how, BENCH_TREE};
use std::error::Error;
use std::hint::black_box;
use ventolaire_sys::Resolve;

/// A side's functions, by the signatures of `include/ventolaire.h`.
pub struct Functions<T> {
    /// Wants an accepted image.
    pub resolve: Resolve,
    pub open: unsafe extern "C" fn(
        *const u8,
        usize,
        *mut T,
        u64,
        bool,
        *const u8,
        usize,
        *const u8,
        usize,
        *mut u64,
        usize,
    ) -> usize,
    pub dup: unsafe extern "C" fn(*mut T, u64, *mut u64, usize) -> usize,
    pub close: unsafe extern "C" fn(*mut T, u64, *mut u64, usize) -> usize,
    pub set_mark: unsafe extern "C" fn(*const u8, usize, *mut T, u64, *mut u64, usize) -> usize,
}

/// A side's table of descriptors.
pub trait Table: Copy {
    /// Makes one slot what it was.
    fn put_back(&mut self, before: &Self, slot: usize);
}

impl Table for Slots {
    fn put_back(&mut self, before: &Slots, slot: usize) {
        self.0[slot] = before.0[slot];
    }
}

/// Descriptors over an image that their side accepted.
pub struct Descriptors<'a, T> {
    image: &'a [u8],
    functions: Functions<T>,
    table: T,
}

impl<'a, T: Table> Descriptors<'a, T> {
    /// # Safety
    ///
    /// With this image the functions read what they are lent alone, and write to the
    /// table and the output alone.
    pub unsafe fn new(image: &'a [u8], functions: Functions<T>, table: T) -> Self {
        Descriptors { image, functions: black_box(functions), table }
    }

    pub fn open(&mut self, number: u64, mark: bool, path: &[u8], how: &[u8]) -> Reply {
        let mut out = [UNWRITTEN; 7];
        // SAFETY: each pointer goes with the length of a slice that outlives the
        // call; for the rest, see `new`.
        unsafe {
            (self.functions.open)(
                self.image.as_ptr(),
                self.image.len(),
                &mut self.table,
                number,
                mark,
                path.as_ptr(),
                path.len(),
                how.as_ptr(),
                how.len(),
                out.as_mut_ptr(),
                out.len(),
            )
        };
        out
    }

    pub fn dup(&mut self, number: u64) -> Reply {
        let mut out = [UNWRITTEN; 7];
        // SAFETY: see `open`.
        unsafe { (self.functions.dup)(&mut self.table, number, out.as_mut_ptr(), out.len()) };
        out
    }

    pub fn close(&mut self, number: u64) -> Reply {
        let mut out = [UNWRITTEN; 7];
        // SAFETY: see `open`.
        unsafe { (self.functions.close)(&mut self.table, number, out.as_mut_ptr(), out.len()) };
        out
    }

    pub fn set_mark(&mut self, number: u64) -> Reply {
        let mut out = [UNWRITTEN; 7];
        // SAFETY: see `open`.
        unsafe {
            (self.functions.set_mark)(
                self.image.as_ptr(),
                self.image.len(),
                &mut self.table,
                number,
                out.as_mut_ptr(),
                out.len(),
            )
        };
        out
    }

    /// The resolver by itself, from lab and over an accepted image. It writes no
    /// descriptor.
    fn resolve(&self, path: &[u8], how: &[u8]) -> Reply {
        let mut out = [UNWRITTEN; 7];
        // SAFETY: see `open`.
        unsafe {
            (self.functions.resolve)(
                self.image.as_ptr(),
                self.image.len(),
                0,
                LAB,
                false,
                path.as_ptr(),
                path.len(),
                how.as_ptr(),
                how.len(),
                out.as_mut_ptr(),
                out.len(),
            )
        };
        out
    }

    pub fn make(&mut self, step: &Step) -> Reply {
        match step {
            Step::Open(open) => self.open(open.number, open.mark, &open.path, &open.how),
            Step::Dup(number) => self.dup(*number),
            Step::Close(number) => self.close(*number),
            Step::SetMark(number) => self.set_mark(*number),
        }
    }

    /// Opens descriptors of lab until so many are open, 0 among them.
    fn filled(mut self, open: usize) -> Self {
        for free in 1..open as u64 {
            let reply = self.open(0, false, b"lab", &how(0, 0));
            assert_eq!(reply, [0, 255, 0, LAB, 1, 0, free]);
        }
        self
    }
}

/// The plain side's descriptors as they start.
pub fn plain(image: &[u8]) -> Descriptors<'_, Slots> {
    assert_eq!(plain::check(image), Ok(()), "descriptors are over accepted tables");
    let functions = Functions {
        resolve: plain_resolve,
        open: slots::open,
        dup: slots::dup,
        close: slots::close,
        set_mark: slots::set_mark,
    };
    // SAFETY: but for their pointers, the functions are safe Rust.
    unsafe { Descriptors::new(image, functions, Slots::start(image)) }
}

/// A path from lab, how it is opened, and what is found.
struct Path {
    path: &'static str,
    flags: u64,
    mark: bool,
    found: [u64; 6],
}

const TARE: Path = Path { path: "cal/tare", flags: 0, mark: false, found: [0, 255, 0, 3, 2, 0] };
const RUN: Path = Path { path: "pool/run", flags: 0, mark: false, found: [0, 255, 1, 9, 2, 0] };
const ABS: Path = Path { path: "cal/abs", flags: 0, mark: false, found: [0, 255, 0, 3, 5, 1] };
const CAL: Path = Path { path: "cal", flags: O_DIRECTORY, mark: true, found: [0, 255, 0, 2, 1, 0] };

/// What is asked of the last descriptor that is open.
enum Asked {
    /// A path from its handle, without descriptors and the mark.
    Resolve(Path),
    Open(Path),
    Dup,
    Close,
    SetMark,
}

struct Case {
    name: &'static str,
    about: &'static str,
    asked: Asked,
}

/// An open stands behind the same path by the resolver alone.
const CASES: &[Case] = &[
    Case { name: "resolve-tare", about: "cal/tare from lab", asked: Asked::Resolve(TARE) },
    Case { name: "open-tare", about: "the same by a descriptor", asked: Asked::Open(TARE) },
    Case { name: "resolve-run", about: "pool/run, into a mount", asked: Asked::Resolve(RUN) },
    Case { name: "open-run", about: "the same by a descriptor", asked: Asked::Open(RUN) },
    Case { name: "resolve-abs", about: "cal/abs, an absolute link", asked: Asked::Resolve(ABS) },
    Case { name: "open-abs", about: "the same by a descriptor", asked: Asked::Open(ABS) },
    Case { name: "resolve-cal", about: "cal with O_DIRECTORY", asked: Asked::Resolve(CAL) },
    Case { name: "open-cal", about: "the same, the mark asked", asked: Asked::Open(CAL) },
    Case { name: "dup", about: "a duplicate", asked: Asked::Dup },
    Case { name: "close", about: "the last one closed", asked: Asked::Close },
    Case { name: "set-mark", about: "the mark set on a directory", asked: Asked::SetMark },
];

/// How many descriptors are open before each call.
const OPEN: [usize; 2] = [8, 63];

/// So many calls that what differs between two runs besides them is less than one
/// instruction of each.
const MORE: u64 = 1_000;

// The bars: instructions of an open above the same resolve, of another call, and of
// either with 63 open above that with 8.
const ABOVE_RESOLVE: f64 = 80.0;
const OTHERS: f64 = 150.0;
const ABOVE_FEW: f64 = 250.0;

impl Case {
    /// The slot that the call may change, of so many that are open.
    fn changed(&self, open: usize) -> usize {
        match self.asked {
            Asked::Resolve(_) | Asked::Open(_) | Asked::Dup => open,
            Asked::Close | Asked::SetMark => open - 1,
        }
    }

    fn reply(&self, open: usize) -> Reply {
        let ([errno, detail, mount, node, components, links], given) = match &self.asked {
            Asked::Resolve(path) => (path.found, UNWRITTEN),
            Asked::Open(path) => (path.found, open as u64),
            Asked::Dup => ([0, 255, 0, 0, 0, 0], open as u64),
            Asked::Close | Asked::SetMark => ([0, 255, 0, 0, 0, 0], 0),
        };
        [errno, detail, mount, node, components, links, given]
    }

    /// How many descriptors are open: without descriptors that makes no difference.
    fn open(&self) -> &'static [usize] {
        match self.asked {
            Asked::Resolve(_) => &OPEN[..1],
            _ => &OPEN,
        }
    }

    /// Makes the call `calls` times, at least once; all replies' numbers added, or a
    /// reply that is wrong.
    fn repeat<T: Table>(
        &self,
        descriptors: Descriptors<T>,
        open: usize,
        calls: u64,
    ) -> Result<u64, Reply> {
        let all = (descriptors.filled(open), self.changed(open), self.reply(open));
        let number = open as u64 - 1;
        // The choice between calls is made once, outside the loop.
        match &self.asked {
            Asked::Resolve(path) => {
                let (path, how) = (path.path.as_bytes(), how(path.flags, 0));
                repeat(calls, all, |descriptors| descriptors.resolve(path, &how))
            }
            Asked::Open(Path { path, flags, mark, .. }) => {
                let (path, how) = (path.as_bytes(), how(*flags, 0));
                repeat(calls, all, |descriptors| descriptors.open(number, *mark, path, &how))
            }
            Asked::Dup => repeat(calls, all, |descriptors| descriptors.dup(number)),
            Asked::Close => repeat(calls, all, |descriptors| descriptors.close(number)),
            Asked::SetMark => repeat(calls, all, |descriptors| descriptors.set_mark(number)),
        }
    }
}

/// Not inlined, so that both sides are called by the same instructions.
#[inline(never)]
fn repeat<T: Table>(
    calls: u64,
    (mut descriptors, slot, expected): (Descriptors<T>, usize, Reply),
    call: impl Fn(&mut Descriptors<T>) -> Reply,
) -> Result<u64, Reply> {
    let before = descriptors.table;
    let mut once = || {
        let reply = call(&mut descriptors);
        descriptors.table.put_back(&before, slot);
        reply
    };
    let first = once();
    if first != expected {
        return Err(first);
    }
    let sum = |reply: Reply| reply.iter().fold(0_u64, |sum, &number| sum.wrapping_add(number));
    Ok((1..calls).fold(sum(first), |total, _| total.wrapping_add(sum(once()))))
}

/// A case such as `dup:8`, that many times: what hangs on the replies, or the reply
/// that is wrong. None if there is no such case.
pub fn run(case: &str, side: Side, calls: u64) -> Option<Result<u64, Reply>> {
    let (name, open) = case.split_once(':')?;
    let case = CASES.iter().find(|case| case.name == name)?;
    let open = open.parse().ok().filter(|open| case.open().contains(open))?;
    match side {
        // The linear side is plain but for the table check.
        Side::Plain | Side::Linear => Some(case.repeat(plain(BENCH_TREE), open, calls)),
        #[cfg(feature = "proved")]
        Side::Proved => Some(case.repeat(proved::descriptors(BENCH_TREE), open, calls)),
    }
}

/// The cases' names and what they are about.
pub fn list() -> impl Iterator<Item = (String, String)> {
    CASES.iter().flat_map(|case| {
        let name = |open| (format!("{}:{open}", case.name), format!("{}, {open} open", case.about));
        case.open().iter().map(name)
    })
}

/// What a call costs, on the proved side too if it takes part.
struct Costs {
    plain: Cost,
    proved: Option<Cost>,
}

impl Costs {
    fn of(name: &str) -> Result<Costs, Box<dyn Error>> {
        let cost = |side: Side| {
            let timed = |calls| match run(name, side, calls) {
                Some(Ok(total)) => total,
                other => panic!("{name}: {} replies {other:?}", side.name()),
            };
            let instructions = instructions(&["run", name, side.name()], MORE)?;
            Ok::<_, Box<dyn Error>>(Cost { instructions, nanoseconds: nanoseconds(timed) })
        };
        Ok(Costs { plain: cost(Side::Plain)?, proved: Side::PROVED.map(cost).transpose()? })
    }

    fn proved(&self) -> Option<f64> {
        self.proved.as_ref().map(|cost| cost.instructions)
    }

    /// The cells of a row, with what the proved side has above its resolve.
    fn cells(&self, above: Option<f64>) -> [String; 6] {
        let whole = |figure: Option<f64>| figure.map_or("-".into(), grouped);
        [
            grouped(self.plain.instructions),
            whole(self.proved()),
            optional(self.proved().map(|proved| proved / self.plain.instructions), 3),
            whole(above),
            grouped(self.plain.nanoseconds),
            whole(self.proved.as_ref().map(|cost| cost.nanoseconds)),
        ]
    }
}

/// Measures all cases and prints a row for each; fails where a bar is broken.
pub fn measure() -> Result<(), Box<dyn Error>> {
    let heads = ["plain", "proved", "ratio", "above resolve", "plain ns", "proved ns"];
    row("call, descriptors open", &heads);
    row("---", &["---:"; 6]);
    let mut most = Most::default();
    let mut resolve = None;
    for case in CASES {
        let mut few = None;
        for open in case.open() {
            let costs = Costs::of(&format!("{}:{open}", case.name))?;
            let proved = costs.proved();
            let above = match case.asked {
                Asked::Open(_) => proved.zip(resolve).map(|(proved, resolve)| proved - resolve),
                _ => None,
            };
            row(&format!("{}:{open}: {}", case.name, case.about), &costs.cells(above));
            match case.asked {
                Asked::Resolve(_) => resolve = proved,
                _ => most.take(few, proved, above),
            }
            few = few.or(proved);
        }
    }
    most.tell()
}

/// The highest figures that have bars.
#[derive(Default)]
struct Most {
    above_resolve: f64,
    others: f64,
    above_few: f64,
}

impl Most {
    /// Of a call: the cost with few open, if it is known, its own, and its open's above
    /// the resolve.
    fn take(&mut self, few: Option<f64>, proved: Option<f64>, above: Option<f64>) {
        let Some(proved) = proved else { return };
        match (few, above) {
            (Some(few), _) => self.above_few = self.above_few.max(proved - few),
            (None, Some(above)) => self.above_resolve = self.above_resolve.max(above),
            (None, None) => self.others = self.others.max(proved),
        }
    }

    fn tell(&self) -> Result<(), Box<dyn Error>> {
        if Side::PROVED.is_none() {
            return Ok(());
        }
        let Most { above_resolve, others, above_few } = self;
        println!();
        println!(
            "Most with {} open: an open {} above its resolve (bar {ABOVE_RESOLVE}), another call \
             {} (bar {OTHERS}); with {} open {} more (bar {ABOVE_FEW}).",
            OPEN[0],
            grouped(*above_resolve),
            grouped(*others),
            OPEN[1],
            grouped(*above_few)
        );
        if *above_resolve > ABOVE_RESOLVE || *others > OTHERS || *above_few > ABOVE_FEW {
            return Err("a call on descriptors is above its bar".into());
        }
        Ok(())
    }
}

#[test]
fn every_side_replies_as_expected() {
    for (case, _) in list() {
        for side in [Some(Side::Plain), Side::PROVED].into_iter().flatten() {
            let [one, three] = [1, 3].map(|calls| run(&case, side, calls).unwrap().unwrap());
            assert_eq!(one.wrapping_mul(3), three, "{case}, {}", side.name());
        }
    }
    assert!(run("dup:9", Side::Plain, 1).is_none() && run("dup", Side::Plain, 1).is_none());
    assert!(OPEN.iter().all(|open| *open < slots::SLOTS));
}
