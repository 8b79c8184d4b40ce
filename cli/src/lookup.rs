//! Names, looked up one by one.

use crate::answer::errno_json;
use crate::arguments::Lookup;
use crate::asked::{self, Answered};
use crate::explain::{self, Explained};
use crate::input;
use crate::json::Object;
use crate::output::{Failure, Output};
use std::fmt;
use ventolaire::{FoundName, NameRefusal};

pub fn run(lookup: &Lookup, output: &mut Output) -> Result<(), Failure> {
    let image = input::image(&lookup.image)?;
    let table = explain::table(&image);
    let answer = |name: &[u8]| match table {
        Ok(table) => Answer { result: table.lookup(lookup.node, name), broken: None },
        Err(broken) => Answer { result: Err(broken.refusal()), broken: Some(broken) },
    };
    asked::answer(&lookup.names, answer, output)
}

/// The answer to one name.
struct Answer {
    result: Result<FoundName, NameRefusal>,
    /// Of a refused table, why it is.
    broken: Option<Explained>,
}

impl Answered for Answer {
    fn is_refused(&self) -> bool {
        self.result.is_err()
    }

    fn json(&self) -> Object {
        let object = Object::new().with("found", self.result.is_ok());
        match self.result {
            Ok(FoundName { entry, node, compared, .. }) => {
                object.with("entry", entry).with("node", node).with("compared", compared)
            }
            Err(NameRefusal { errno, compared, .. }) => {
                let why = explain::member(self.broken);
                object.and(errno_json(errno)).and(why).with("compared", compared)
            }
        }
    }
}

impl fmt::Display for Answer {
    fn fmt(&self, f: &mut fmt::Formatter) -> fmt::Result {
        match (self.result, self.broken) {
            (Ok(found), _) => write!(f, "{found}"),
            (Err(refusal), None) => write!(f, "{refusal}"),
            (Err(refusal), Some(broken)) => {
                write!(f, "{}, {broken}; 0 names compared", refusal.errno)
            }
        }
    }
}
