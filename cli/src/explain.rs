//! Why a table is refused.

use crate::json::Object;
use std::fmt;
use ventolaire::{Broken, BuildError, Cause, Record, Table};

/// A broken rule, and what breaks it.
#[derive(Clone, Copy)]
pub struct Explained {
    broken: Broken,
    cause: Cause,
}

/// The table of an image, or why it is refused.
pub fn table(image: &[u8]) -> Result<Table<'_>, Explained> {
    Table::new(image).map_err(|broken| Explained { broken, cause: broken.cause(image) })
}

impl Explained {
    /// The answer to every path or name in such a table.
    pub fn refusal<R: From<Broken>>(&self) -> R {
        self.broken.into()
    }

    fn json(&self) -> Object {
        let rule = Object::new().with("rule", self.broken.rule).text("clause", self.cause.clause);
        let charged = match self.cause.record {
            Some(Record::Node(number)) => rule.with("node", number),
            Some(Record::Entry(number)) => rule.with("entry", number),
            Some(Record::Mount(number)) => rule.with("mount", number),
            _ => rule,
        };
        charged.text("reason", &self.cause.to_string())
    }
}

impl fmt::Display for Explained {
    fn fmt(&self, f: &mut fmt::Formatter) -> fmt::Result {
        write!(f, "rule {} broken", self.broken.rule)?;
        if let Some(record) = self.cause.record {
            write!(f, " by {record}")?;
        }
        write!(f, ": {} (RULES {})", self.cause, self.cause.clause)
    }
}

/// Why an accepted table's tree has no image of its own.
pub fn unbuilt(error: BuildError) -> String {
    match error {
        // Names and bodies that share text are written one by one.
        BuildError::Broken(Broken { rule: 1, .. }) => {
            "without sharing in its text it has over 65,536 bytes".into()
        }
        error => error.to_string(),
    }
}

/// The verdict on a table.
pub fn verdict(broken: Option<Explained>) -> Object {
    Object::new().with("accepted", broken.is_none()).and(member(broken))
}

/// The member that tells why a table is refused, if it is.
pub fn member(broken: Option<Explained>) -> Object {
    broken.map(|broken| Object::new().with("broken", broken.json())).unwrap_or_default()
}
