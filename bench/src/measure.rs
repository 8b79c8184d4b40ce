//! What one call costs.

use crate::side::Side;
use crate::tables::{Call, Input};
use std::error::Error;
use std::hint::black_box;
use std::process::Command;
use std::time::{Duration, Instant};

pub struct Cost {
    pub instructions: f64,
    pub nanoseconds: f64,
}

/// A figure for each side that takes part: the linear one in table checks alone,
/// the proved one in builds that have it.
pub struct Sides<T> {
    pub plain: T,
    pub linear: Option<T>,
    pub proved: Option<T>,
}

impl<T> Sides<T> {
    pub fn map<U>(&self, figure: impl Fn(&T) -> U) -> Sides<U> {
        Sides {
            plain: figure(&self.plain),
            linear: self.linear.as_ref().map(&figure),
            proved: self.proved.as_ref().map(&figure),
        }
    }
}

impl Sides<f64> {
    /// Proved over plain.
    pub fn to_plain(&self) -> Option<f64> {
        Some(self.proved? / self.plain)
    }

    /// Proved over linear.
    pub fn to_linear(&self) -> Option<f64> {
        Some(self.proved? / self.linear?)
    }
}

/// A case whose answers are right on every side.
pub struct Measured<'a> {
    name: &'a str,
    input: Input,
}

impl<'a> Measured<'a> {
    pub fn new(name: &'a str, input: Input) -> Result<Self, Box<dyn Error>> {
        let measured = Measured { name, input };
        measured.each(|side| {
            let expected = measured.input.expected;
            match side.answers(&measured.input).into_iter().find(|&answer| answer != expected) {
                Some(answer) => {
                    let side = side.name();
                    Err(format!("{name}: {side} answers {answer:?}, not {expected:?}").into())
                }
                None => Ok(()),
            }
        })?;
        Ok(measured)
    }

    pub fn is_check(&self) -> bool {
        matches!(self.input.call, Call::Check)
    }

    /// A figure for each side that takes part.
    fn each<T>(
        &self,
        figure: impl Fn(Side) -> Result<T, Box<dyn Error>>,
    ) -> Result<Sides<T>, Box<dyn Error>> {
        let linear = self.is_check().then_some(Side::Linear);
        Ok(Sides {
            plain: figure(Side::Plain)?,
            linear: linear.map(&figure).transpose()?,
            proved: Side::PROVED.map(&figure).transpose()?,
        })
    }

    /// The cost on each side.
    pub fn costs(&self) -> Result<Sides<Cost>, Box<dyn Error>> {
        self.each(|side| {
            let nanoseconds = self.time(side);
            // As many calls as take about a millisecond outside valgrind.
            let calls = (1e6 / nanoseconds).clamp(4.0, 1_000.0) as u64;
            Ok(Cost { instructions: self.instructions_of(side, calls)?, nanoseconds })
        })
    }

    /// The instructions on each side, without the time, and thus sooner.
    pub fn instructions(&self) -> Result<Sides<f64>, Box<dyn Error>> {
        self.each(|side| self.instructions_of(side, 50))
    }

    fn time(&self, side: Side) -> f64 {
        nanoseconds(|calls| side.run(&self.input, calls))
    }

    fn instructions_of(&self, side: Side, more: u64) -> Result<f64, Box<dyn Error>> {
        instructions(&["run", self.name, side.name()], more)
    }
}

/// The instructions of one call: the difference of two runs of this program under
/// callgrind, for the same reason as that of times. The arguments lack the number
/// of calls.
pub fn instructions(arguments: &[&str], more: u64) -> Result<f64, Box<dyn Error>> {
    let few = collected(arguments, 1)?;
    let many = collected(arguments, 1 + more)?;
    let each = (many as f64 - few as f64) / more as f64;
    // A compiler that sees through a call may make it once for all.
    if each < 10.0 {
        return Err(format!("{}: the calls were not made one by one", arguments.join(" ")).into());
    }
    Ok(each)
}

/// The instructions of one whole run.
fn collected(arguments: &[&str], calls: u64) -> Result<u64, Box<dyn Error>> {
    let output = Command::new("valgrind")
        .args(["--tool=callgrind", "--callgrind-out-file=/dev/null"])
        .arg(std::env::current_exe()?)
        .args(arguments)
        .arg(calls.to_string())
        .output()
        .map_err(|error| format!("valgrind: {error}"))?;
    let stderr = String::from_utf8_lossy(&output.stderr);
    if !output.status.success() {
        return Err(format!("valgrind on {}: {stderr}", arguments.join(" ")).into());
    }
    stderr
        .lines()
        .find(|line| line.contains("Collected"))
        .and_then(|line| line.split_whitespace().last()?.parse().ok())
        .ok_or_else(|| format!("valgrind collected nothing: {stderr}").into())
}

/// The time of one call: the difference between one and many, each the best of
/// five, so that what goes before the first call cancels out.
pub fn nanoseconds(run: impl Fn(u64) -> u64) -> f64 {
    let batch = |calls: u64| {
        let start = Instant::now();
        black_box(run(calls));
        start.elapsed()
    };
    let best = |calls| (0..5).map(|_| batch(calls)).min().unwrap_or_default();
    let once = best(1);
    let mut more = 1;
    while batch(1 + more).saturating_sub(once) < Duration::from_millis(10) && more < 1 << 40 {
        more *= 2;
    }
    best(1 + more).saturating_sub(once).as_nanos() as f64 / more as f64
}
