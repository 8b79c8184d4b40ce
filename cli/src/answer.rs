//! The answer to one path.

use crate::asked::Answered;
use crate::explain::{self, Explained};
use crate::json::Object;
use crate::place;
use std::fmt;
use ventolaire::{Errno, Found, Refusal, UnknownBit};

#[derive(Clone, Copy)]
pub struct Answer {
    pub result: Result<Found, Refusal>,
    /// Of a refused table, why it is.
    pub broken: Option<Explained>,
}

impl From<Result<Found, Refusal>> for Answer {
    fn from(result: Result<Found, Refusal>) -> Self {
        Answer { result, broken: None }
    }
}

impl From<Explained> for Answer {
    fn from(broken: Explained) -> Self {
        Answer { result: Err(broken.refusal()), broken: Some(broken) }
    }
}

impl Answered for Answer {
    fn is_refused(&self) -> bool {
        self.result.is_err()
    }

    fn json(&self) -> Object {
        let object = Object::new().with("found", self.result.is_ok());
        match self.result {
            Ok(found) => object.and(found_json(found)),
            Err(refusal) => object.and(refusal_json(refusal, explain::member(self.broken))),
        }
    }
}

impl fmt::Display for Answer {
    fn fmt(&self, f: &mut fmt::Formatter) -> fmt::Result {
        match self.result {
            Ok(found) => write_found(f, found),
            Err(refusal) => write_refusal(f, refusal, self.broken),
        }
    }
}

/// The members of what was found.
pub fn found_json(found: Found) -> Object {
    let place = Object::new().place("place", found.place);
    place.with("components", found.components).with("links", found.links)
}

/// The members of a refusal, with more that is known of it.
pub fn refusal_json(refusal: Refusal, more: Object) -> Object {
    let bit = |field, bit| {
        let bit = Object::new().text("field", field).with("bit", bit);
        Object::new().with("unknown_bit", bit)
    };
    let unknown_bit = match refusal.unknown_bit() {
        Some(UnknownBit::Flags(number)) => bit("flags", number),
        Some(UnknownBit::Resolve(number)) => bit("resolve", number),
        _ => Object::new(),
    };
    errno_json(refusal.errno)
        .and(more)
        .and(unknown_bit)
        .with("components", refusal.components)
        .with("links", refusal.links)
}

/// The members of an errno.
pub fn errno_json(errno: Errno) -> Object {
    Object::new().text("error", errno.name()).with("errno", errno.number())
}

pub fn write_found(f: &mut fmt::Formatter, found: Found) -> fmt::Result {
    f.write_str(&place::text(found.place))?;
    write_counts(f, found.components, found.links)
}

/// Writes a refusal, with why it was given if that is known.
pub fn write_refusal(
    f: &mut fmt::Formatter,
    refusal: Refusal,
    why: Option<impl fmt::Display>,
) -> fmt::Result {
    write!(f, "{}", refusal.errno)?;
    match (why, refusal.unknown_bit()) {
        (Some(why), _) => write!(f, ", {why}")?,
        (None, Some(bit)) => write!(f, ", {bit}")?,
        (None, None) => {}
    }
    write_counts(f, refusal.components, refusal.links)
}

fn write_counts(f: &mut fmt::Formatter, components: u64, links: u64) -> fmt::Result {
    let s = |count| if count == 1 { "" } else { "s" };
    write!(f, "; {components} component{}, {links} link{}", s(components), s(links))
}
