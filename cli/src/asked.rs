//! Paths or names, answered one by one.

use crate::arguments::{Asked, Source};
use crate::escape;
use crate::input::Parted;
use crate::json::Object;
use crate::output::{Failure, Output};
use std::fmt::Display;

/// An answer: as text it is what it prints.
pub trait Answered: Display {
    fn is_refused(&self) -> bool;
    fn json(&self) -> Object;
}

/// Prints the answer to each, behind what was asked if there can be several.
pub fn answer<A: Answered>(
    asked: &Asked,
    answer: impl Fn(&[u8]) -> A,
    output: &mut Output,
) -> Result<(), Failure> {
    let print = |bytes: &[u8], named: bool, output: &mut Output| {
        let answer = answer(bytes);
        output.refused |= answer.is_refused();
        match (asked.json, named) {
            (true, _) => output.line(Object::new().bytes(asked.what, bytes).and(answer.json())),
            (false, true) => output.line(format_args!("{}\t{answer}", escape::text(bytes))),
            (false, false) => output.line(answer),
        }
    };
    match &asked.source {
        Source::Given(words) => {
            for word in words {
                print(word.as_encoded_bytes(), words.len() > 1, output)?;
            }
        }
        Source::List { file, end } => {
            let mut list = Parted::open(file, asked.what, *end)?;
            while let Some(part) = list.next().or_else(|error| output.then_fail(error))? {
                print(&part, true, output)?;
                if list.waits() {
                    output.flush()?;
                }
            }
        }
    }
    Ok(())
}
