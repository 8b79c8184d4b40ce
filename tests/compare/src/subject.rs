//! What is compared with the resolver: the library through its C functions,
//! or the faulty resolver.

use crate::builder::Parts;
use crate::common::in_common;
use crate::descriptors::SLOTS;
use crate::faults::Fault;
use crate::faulty;
use crate::manifest::Rewritten;
use crate::reach::reach;
use crate::resolver::{accept, Place};
use data::sequence::Step;
use std::collections::BTreeSet;

/// The bytes lent to a call. They are handed over as bytes that could be
/// written, so that a subject that writes to them is seen.
#[derive(Clone, PartialEq, Eq)]
pub struct Lent {
    pub image: Vec<u8>,
    pub path: Vec<u8>,
    pub how: Vec<u8>,
}

#[derive(Clone, Copy)]
pub struct Handle {
    pub mount: u64,
    pub node: u64,
    pub mark: bool,
}

/// The 64 numbers that a table of descriptors is, 0 for a closed one.
pub type Slots = [u64; SLOTS];

/// How a call on descriptors, or a lookup, is made: by the function that wants an accepted
/// image, where there is one, or by the other; and room for how many numbers it is given.
#[derive(Clone, Copy)]
pub struct Way {
    pub accepted: bool,
    pub room: usize,
}

/// Those of a call on descriptors.
impl Way {
    pub const CHECKED: Way = Way { accepted: false, room: 7 };
    pub const ACCEPTED: Way = Way { accepted: true, ..Way::CHECKED };
}

/// Each function gives the numbers that the subject wrote: two for a check or a start, six
/// for a call, seven for one on descriptors, four for a lookup or a build.
pub trait Subject {
    fn check(&mut self, image: &mut [u8]) -> Vec<u64>;
    fn resolve(&mut self, lent: &mut Lent, handle: Handle) -> Vec<u64>;
    fn start(&mut self, image: &mut [u8], slots: &mut Slots, room: usize) -> Vec<u64>;
    /// The image must be accepted.
    fn start_accepted(&mut self, image: &mut [u8], slots: &mut Slots);
    /// A call on descriptors. Path and open_how of an open are lent like the image.
    fn act(&mut self, image: &mut [u8], slots: &mut Slots, step: &mut Step, way: Way) -> Vec<u64>;
    /// A lookup of a name in the directory `node`.
    fn lookup(&mut self, image: &mut [u8], node: u64, name: &mut [u8], way: Way) -> Vec<u64>;
    /// A build into the buffer, with room for so many numbers.
    fn build(&mut self, parts: &mut Parts, buffer: &mut [u8], room: usize) -> Vec<u64>;
    /// The image of the manifest of an image, which must be accepted.
    fn rewritten(&mut self, image: &[u8]) -> Rewritten;
    /// The places of a handle's part, and whether the second image has it in common with the
    /// first. Both must be accepted, and the handle good in the first. A subject that knows no
    /// parts has them as they are.
    fn part(&mut self, [first, second]: [&[u8]; 2], handle: Place) -> (BTreeSet<Place>, bool) {
        match (accept(first), accept(second)) {
            (Ok(first), Ok(second)) => (reach(&first, handle), in_common(&first, &second, handle)),
            _ => (BTreeSet::new(), false),
        }
    }
}

/// The second shape of the resolver, with a fault planted or none.
pub struct Planted(pub Option<Fault>);

impl Subject for Planted {
    fn check(&mut self, image: &mut [u8]) -> Vec<u64> {
        faulty::check(self.0, image).to_vec()
    }

    fn resolve(&mut self, lent: &mut Lent, handle: Handle) -> Vec<u64> {
        let Lent { image, path, how } = lent;
        let place = (handle.mount, handle.node);
        faulty::resolve(self.0, image, place, handle.mark, path, how).to_vec()
    }

    fn start(&mut self, image: &mut [u8], slots: &mut Slots, room: usize) -> Vec<u64> {
        if room < 2 {
            return Vec::new();
        }
        self.start_accepted(image, slots);
        self.check(image)
    }

    fn start_accepted(&mut self, image: &mut [u8], slots: &mut Slots) {
        *slots = faulty::start(self.0, image);
    }

    fn act(&mut self, image: &mut [u8], slots: &mut Slots, step: &mut Step, way: Way) -> Vec<u64> {
        if way.room < 7 {
            return Vec::new();
        }
        faulty::act(self.0, image, slots, step, way.accepted).to_vec()
    }

    fn lookup(&mut self, image: &mut [u8], node: u64, name: &mut [u8], way: Way) -> Vec<u64> {
        if way.room < 4 {
            return Vec::new();
        }
        faulty::lookup(self.0, image, node, name, way.accepted).to_vec()
    }

    fn build(&mut self, parts: &mut Parts, buffer: &mut [u8], room: usize) -> Vec<u64> {
        if room < 4 {
            return Vec::new();
        }
        faulty::build(self.0, parts, buffer).to_vec()
    }

    fn rewritten(&mut self, image: &[u8]) -> Rewritten {
        faulty::rewritten(self.0, image)
    }
}

#[cfg(feature = "subject")]
pub use linked::Linked;

#[cfg(feature = "subject")]
mod linked;
