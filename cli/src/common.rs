//! Whether two tables have a handle's part in common.

use crate::answer::errno_json;
use crate::counted::counted;
use crate::explain::{self, Explained};
use crate::json::Object;
use crate::output::{Failure, Output};
use crate::part::Without;
use crate::place;
use std::fmt;
use ventolaire::text::Quoted;
use ventolaire::{Difference, Part, PartDifference};

pub fn tell(
    part: Result<Part, Without>,
    other: &[u8],
    json: bool,
    output: &mut Output,
) -> Result<(), Failure> {
    let verdict = Verdict::of(part, other);
    output.refused = !matches!(verdict, Verdict::Common { .. });
    match json {
        true => output.line(verdict.json()),
        false => output.line(verdict),
    }
}

enum Verdict {
    Common {
        places: usize,
    },
    /// At the first place that differs.
    Apart(PartDifference),
    /// The other table is refused.
    Other(Explained),
    /// There is no part to compare.
    Without(Without),
}

impl Verdict {
    fn of(part: Result<Part, Without>, other: &[u8]) -> Verdict {
        let part = match part {
            Ok(part) => part,
            Err(why) => return Verdict::Without(why),
        };
        match explain::table(other).map(|other| part.in_common_with(&other)) {
            Ok(Ok(())) => Verdict::Common { places: part.len() },
            Ok(Err(difference)) => Verdict::Apart(difference),
            Err(broken) => Verdict::Other(broken),
        }
    }

    fn json(&self) -> Object {
        let is_common = matches!(self, Verdict::Common { .. });
        let object = Object::new().with("in_common", is_common);
        match self {
            Verdict::Common { places } => object.with("places", places),
            Verdict::Apart(difference) => object.and(apart(difference)),
            Verdict::Other(broken) => {
                object.text("reason", REFUSED).and(explain::member(Some(*broken)))
            }
            Verdict::Without(why) => object.and(why.json()),
        }
    }
}

const REFUSED: &str = "the other table is refused";

/// The members of a difference.
fn apart(difference: &PartDifference) -> Object {
    let PartDifference { place, path, what, .. } = difference;
    let object = Object::new().place("place", *place).bytes("path", path);
    let object = object.text("reason", &what.to_string());
    match what {
        Difference::Handle(errno) => object.and(errno_json(*errno)),
        _ => object,
    }
}

impl fmt::Display for Verdict {
    fn fmt(&self, f: &mut fmt::Formatter) -> fmt::Result {
        match self {
            Verdict::Common { places } => {
                write!(f, "in common: {}", counted(*places, "place", "places"))
            }
            Verdict::Apart(PartDifference { place, path, what, .. }) => {
                write!(f, "not in common: {}, ", place::text(*place))?;
                match &path[..] {
                    b"." => write!(f, "the handle: {what}"),
                    path => write!(f, "{}: {what}", Quoted(path)),
                }
            }
            Verdict::Other(broken) => write!(f, "not in common: {REFUSED}: {broken}"),
            Verdict::Without(why) => write!(f, "{why}"),
        }
    }
}
