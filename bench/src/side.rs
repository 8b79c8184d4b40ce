//! The sides that are measured.

use crate::linear;
use crate::plain::{self, Broken, Found, Handle, Refusal};
#[cfg(feature = "proved")]
use crate::proved;
use crate::tables::{Call, Input, Numbers};
use crate::walk::Accepted;
use std::hint::black_box;

#[derive(Clone, Copy)]
pub enum Side {
    Plain,
    /// The plain side with a check that is linear in the image.
    Linear,
    #[cfg(feature = "proved")]
    Proved,
}

impl Side {
    #[cfg(feature = "proved")]
    pub const PROVED: Option<Side> = Some(Side::Proved);
    #[cfg(not(feature = "proved"))]
    pub const PROVED: Option<Side> = None;

    /// The sides that this build has.
    pub fn all() -> impl Iterator<Item = Side> {
        [Some(Side::Plain), Some(Side::Linear), Side::PROVED].into_iter().flatten()
    }

    pub fn named(name: &str) -> Option<Side> {
        Side::all().find(|side| side.name() == name)
    }

    /// Whether the side has an answer of its own: the linear one walks as plain.
    pub fn takes_part(self, input: &Input) -> bool {
        !matches!((self, &input.call), (Side::Linear, Call::Resolve { .. }))
    }

    pub fn name(self) -> &'static str {
        match self {
            Side::Plain => "plain",
            Side::Linear => "linear",
            #[cfg(feature = "proved")]
            Side::Proved => "proved",
        }
    }

    /// Makes the input's call `calls` times, at least once; a number that hangs
    /// on the answers. Before walks the table is checked, once.
    pub fn run(self, input: &Input, calls: u64) -> u64 {
        // The choice between sides and calls is made once, outside the loop.
        let image = input.image.as_slice();
        match (self, &input.call) {
            (Side::Plain, Call::Check) => repeat(calls, || checked(plain::check(black_box(image)))),
            (Side::Linear, Call::Check) => {
                repeat(calls, || checked(linear::check(black_box(image))))
            }
            (Side::Plain | Side::Linear, Call::Resolve { handle, path, how }) => {
                walks(calls, &Accepted::plain(image), *handle, path, how)
            }
            #[cfg(feature = "proved")]
            (Side::Proved, Call::Check) => repeat(calls, || proved::check(black_box(image))),
            #[cfg(feature = "proved")]
            (Side::Proved, Call::Resolve { handle, path, how }) => {
                walks(calls, &proved::accepted(image), *handle, path, how)
            }
        }
    }

    /// The answers to an input, all of which have to be the expected one: where a
    /// call's table is accepted, the resolver that checks it each time has to
    /// answer as the one that does not.
    pub fn answers(self, input: &Input) -> Vec<Numbers> {
        let image = input.image.as_slice();
        let is_accepted = |answer: Numbers| answer[0] != EUCLEAN;
        match (self, &input.call) {
            (Side::Plain, Call::Check) => vec![checked(plain::check(image))],
            (Side::Linear, Call::Check) => vec![checked(linear::check(image))],
            (Side::Plain | Side::Linear, &Call::Resolve { handle, ref path, ref how }) => {
                let answer = resolved(plain::resolve(image, handle, path, how));
                let walk = || Accepted::plain(image).resolve(handle, path, how);
                [answer].into_iter().chain(is_accepted(answer).then(walk)).collect()
            }
            #[cfg(feature = "proved")]
            (Side::Proved, Call::Check) => vec![proved::check(image)],
            #[cfg(feature = "proved")]
            (Side::Proved, &Call::Resolve { handle, ref path, ref how }) => {
                proved::resolve(image, handle, path, how)
            }
        }
    }
}

/// What a call on a table that is not accepted answers.
pub const EUCLEAN: u64 = plain::Errno::EUCLEAN as u64;

/// Not inlined, so that both sides are called by the same instructions.
#[inline(never)]
fn walks(calls: u64, table: &Accepted, handle: Handle, path: &[u8], how: &[u8]) -> u64 {
    repeat(calls, || table.resolve(handle, path, how))
}

fn repeat(calls: u64, call: impl Fn() -> Numbers) -> u64 {
    (0..calls.max(1)).fold(0, |total: u64, _| total.wrapping_add(sum(call())))
}

fn sum(answer: Numbers) -> u64 {
    answer.iter().fold(0, |sum, &number| sum.wrapping_add(number))
}

/// The check's answer in numbers.
pub fn checked(answer: Result<(), Broken>) -> Numbers {
    let (rule, record) = answer.err().map_or((0, 0), |broken| (broken.rule, broken.record));
    [rule.into(), record.into(), 0, 0, 0, 0]
}

/// The resolver's answer in numbers.
pub fn resolved(answer: Result<Found, Refusal>) -> Numbers {
    match answer {
        Ok(Found { place, components, links }) => {
            [0, 255, place.mount.into(), place.node.into(), components.into(), links.into()]
        }
        Err(Refusal { errno, detail, components, links }) => {
            [errno as u64, detail.into(), 0, 0, components.into(), links.into()]
        }
    }
}
