//! The one image of a table's tree.

use crate::arguments::{Canonical, Goal};
use crate::explain::{self, Explained};
use crate::input;
use crate::json::Object;
use crate::output::{Failure, Output};
use std::fmt;
use ventolaire::{BuildError, Parts, Table};

pub fn run(asked: &Canonical, output: &mut Output) -> Result<(), Failure> {
    if let Goal::Write(to) = &asked.goal {
        to.check()?;
    }
    let image = input::image(&asked.image)?;
    let mut buffer = vec![0; Parts::IMAGE_MAX];
    let tables = build(&image, &mut buffer);
    let to = match &asked.goal {
        Goal::Check { json } => return check(tables, *json, output),
        Goal::Write(to) => to,
    };
    let Tables { built, .. } =
        tables.map_err(|why| format!("cannot write {} anew: {why}", input::shown(&asked.image)))?;
    to.write(built.image(), output)
}

fn check(tables: Result<Tables, Without>, json: bool, output: &mut Output) -> Result<(), Failure> {
    let verdict = Verdict::of(tables);
    output.refused = !matches!(verdict, Verdict::Canonical { .. });
    match json {
        true => output.line(verdict.json()),
        false => output.line(verdict),
    }
}

/// A table, and the one image of its tree as a table.
struct Tables<'a> {
    given: Table<'a>,
    built: Table<'a>,
}

/// Why a table has no such image.
enum Without {
    /// It is refused itself.
    Refused(Explained),
    /// It would be refused.
    Built(BuildError),
}

impl fmt::Display for Without {
    fn fmt(&self, f: &mut fmt::Formatter) -> fmt::Result {
        match self {
            Without::Refused(broken) => write!(f, "{broken}"),
            Without::Built(error) => f.write_str(&explain::unbuilt(*error)),
        }
    }
}

fn build<'a>(image: &'a [u8], buffer: &'a mut [u8]) -> Result<Tables<'a>, Without> {
    let given = explain::table(image).map_err(Without::Refused)?;
    let built = given.parts().build_into(buffer).map_err(Without::Built)?;
    Ok(Tables { given, built })
}

/// Whether an image is the one of its tree.
enum Verdict {
    Canonical {
        bytes: usize,
    },
    /// What is otherwise in it, and how many bytes the one has.
    Other {
        reason: String,
        bytes: usize,
    },
    Without(Without),
}

impl Verdict {
    fn of(tables: Result<Tables, Without>) -> Verdict {
        match tables {
            Ok(Tables { given, built }) => {
                let bytes = built.image().len();
                match given.image() == built.image() {
                    true => Verdict::Canonical { bytes },
                    false => {
                        let reason = difference(given.parts(), built.parts());
                        Verdict::Other { reason, bytes }
                    }
                }
            }
            Err(why) => Verdict::Without(why),
        }
    }

    fn json(&self) -> Object {
        let is_canonical = matches!(self, Verdict::Canonical { .. });
        let object = Object::new().with("canonical", is_canonical);
        match self {
            Verdict::Canonical { bytes } => object.with("bytes", bytes),
            Verdict::Other { reason, bytes } => object.text("reason", reason).with("bytes", bytes),
            Verdict::Without(Without::Refused(broken)) => {
                object.and(explain::member(Some(*broken)))
            }
            Verdict::Without(why) => object.text("reason", &why.to_string()),
        }
    }
}

impl fmt::Display for Verdict {
    fn fmt(&self, f: &mut fmt::Formatter) -> fmt::Result {
        match self {
            Verdict::Canonical { .. } => f.write_str("canonical"),
            Verdict::Other { reason, .. } => write!(f, "not canonical: {reason}"),
            Verdict::Without(Without::Refused(broken)) => write!(f, "{broken}"),
            Verdict::Without(why) => write!(f, "not canonical: {why}"),
        }
    }
}

/// What is otherwise in a table than in the one image of its tree: the first name that stands
/// elsewhere in the text, else the first body, else the length of the text. All other fields are
/// written as they are.
fn difference(has: Parts, wants: Parts) -> String {
    let names = moved::<8>(has.entries, wants.entries, 0);
    let bodies = moved::<12>(has.nodes, wants.nodes, 4);
    let told = |what, (number, has, wants): (usize, u32, u32)| {
        format!("the {what} {number} begins at byte {has} of the text, not at {wants}")
    };
    let moved = names.map(|name| told("name of entry", name));
    let moved = moved.or_else(|| bodies.map(|body| told("body of node", body)));
    let (has, wants) = (has.text.len(), wants.text.len());
    moved.unwrap_or_else(|| format!("its text has {has} bytes, not {wants}"))
}

/// The first record whose offset, a field at `at`, is not the same: its number and both offsets.
fn moved<const N: usize>(has: &[u8], wants: &[u8], at: usize) -> Option<(usize, u32, u32)> {
    let offset = |record: &[u8; N]| {
        record.get(at..).and_then(|field| field.first_chunk()).map_or(0, |f| u32::from_le_bytes(*f))
    };
    let records = has.as_chunks().0.iter().zip(wants.as_chunks().0);
    let mut moved = records.map(|(has, wants)| (offset(has), offset(wants))).enumerate();
    moved.find(|(_, (has, wants))| has != wants).map(|(number, (has, wants))| (number, has, wants))
}
