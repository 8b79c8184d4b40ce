//! What can be reached from a handle, place by place.

use crate::answer::errno_json;
use crate::arguments::Part;
use crate::common;
use crate::explain::{self, Explained};
use crate::input;
use crate::json::Object;
use crate::output::{Failure, Output};
use crate::{escape, list, place, show};
use std::fmt;
use ventolaire::{Errno, Handle, Place, Reachable, Table};

pub fn run(asked: &Part, output: &mut Output) -> Result<(), Failure> {
    let image = input::image(&asked.image)?;
    let other = asked.other.as_deref().map(input::image).transpose()?;
    let part = of(asked, &image);
    match other {
        Some(other) => common::tell(part, &other, asked.json, output),
        None => tell(part, asked.json, output),
    }
}

/// The part of the handle that is asked for.
fn of<'a>(asked: &Part, image: &'a [u8]) -> Result<ventolaire::Part<'a>, Without> {
    let table = explain::table(image).map_err(Without::Table)?;
    let handle = asked.handle.unwrap_or_else(|| root(&table));
    table.part(handle).map_err(|refusal| Without::Handle(handle, refusal.errno))
}

fn root(table: &Table) -> Place {
    let Handle { mount, node, .. } = table.root();
    Place { mount, node }
}

/// Why there is no part.
pub enum Without {
    Table(Explained),
    Handle(Place, Errno),
}

impl Without {
    pub fn json(&self) -> Object {
        match self {
            Without::Table(broken) => {
                errno_json(Errno::EUCLEAN).and(explain::member(Some(*broken)))
            }
            Without::Handle(handle, errno) => errno_json(*errno).place("handle", *handle),
        }
    }
}

impl fmt::Display for Without {
    fn fmt(&self, f: &mut fmt::Formatter) -> fmt::Result {
        match self {
            Without::Table(broken) => write!(f, "{}, {broken}", Errno::EUCLEAN),
            Without::Handle(handle, errno) => {
                write!(f, "{errno}, the handle {} is refused", place::text(*handle))
            }
        }
    }
}

fn tell(
    part: Result<ventolaire::Part, Without>,
    json: bool,
    output: &mut Output,
) -> Result<(), Failure> {
    output.refused = part.is_err();
    match (part, json) {
        (Ok(part), true) => part.places().try_for_each(|there| output.line(in_json(&there))),
        (Ok(part), false) => part.places().try_for_each(|there| output.line(in_text(&there))),
        (Err(why), true) => output.line(why.json()),
        (Err(why), false) => output.line(why),
    }
}

fn in_text(there: &Reachable) -> String {
    let (place, path) = (place::text(there.place), escape::text(&there.path()));
    let line = format!("{place:>8}  {:13}  {path}{}", there.node.kind(), show::lead(&there.node));
    match there.covered_by {
        Some(mount) => format!("{line}  [{}]", show::covers(mount, there.place)),
        None => line,
    }
}

fn in_json(there: &Reachable) -> Object {
    let object = Object::new().place("place", there.place).text("kind", list::kind(&there.node));
    let object = object.bytes("path", &there.path()).and(list::lead(&there.node));
    match there.covered_by {
        Some(mount) => object.with("covered_by", mount),
        None => object,
    }
}
