//! The reply to one call of a script.

use crate::answer::{found_json, refusal_json, write_found, write_refusal};
use crate::call::{Call, Given};
use crate::explain::{self, Explained};
use crate::json::Object;
use std::fmt;
use ventolaire::{Descriptors, Errno, Refusal};

pub struct Reply<'a> {
    call: &'a Call,
    pub result: Result<Given, Refusal>,
    /// Of a refusal that has to do with descriptors, what has.
    why: Option<String>,
    /// Of a refused table, why it is.
    broken: Option<Explained>,
}

impl<'a> Reply<'a> {
    /// Makes a call. Over a refused table there are no descriptors.
    pub fn to(call: &'a Call, on: &mut Result<Descriptors, Explained>) -> Self {
        let result = match on {
            Ok(descriptors) => call.make(descriptors),
            Err(_) => Err(Errno::EBADF.into()),
        };
        // A refusal leaves the descriptors as they were.
        let is_open = on.as_ref().is_ok_and(|descriptors| descriptors.is_open(call.number));
        let why = result.as_ref().err().and_then(|refusal| why(call, is_open, refusal));
        Reply { call, result, why, broken: on.as_ref().err().copied() }
    }

    /// With the line that the call is in.
    pub fn json(&self, line: u64) -> Object {
        let object = Object::new().with("line", line).text("call", self.call.name);
        let object = object.with("done", self.result.is_ok());
        match &self.result {
            Ok(Given::Opened(opened)) => {
                object.with("descriptor", opened.descriptor).and(found_json(opened.found))
            }
            Ok(Given::Copy(descriptor)) => object.with("descriptor", descriptor),
            Ok(Given::Nothing) => object,
            Err(refusal) => {
                let why = self.why.as_ref().map(|why| Object::new().text("reason", why));
                let more = why.unwrap_or_default().and(explain::member(self.broken));
                object.and(refusal_json(*refusal, more))
            }
        }
    }
}

impl fmt::Display for Reply<'_> {
    fn fmt(&self, f: &mut fmt::Formatter) -> fmt::Result {
        match &self.result {
            Ok(Given::Opened(opened)) => {
                write!(f, "{} = ", opened.descriptor)?;
                write_found(f, opened.found)
            }
            Ok(Given::Copy(descriptor)) => write!(f, "{descriptor} = copy of {}", self.call.number),
            Ok(Given::Nothing) => f.write_str("done"),
            Err(refusal) => write_refusal(f, *refusal, self.why.as_ref()),
        }
    }
}

/// What a refusal has to do with descriptors, in words. None if it is the walk's.
fn why(call: &Call, is_open: bool, refusal: &Refusal) -> Option<String> {
    let number = call.number;
    Some(match refusal.errno {
        Errno::EBADF if number >= Descriptors::COUNT => "there is no descriptor above 63".into(),
        Errno::EBADF if !is_open => format!("descriptor {number} is not open"),
        // A place that was found has numbers in range, and a directory among them is under its
        // mount's root: what is left is what a magic link led to.
        Errno::EBADF => format!("descriptor {number} is a directory that a mount covers"),
        // A walk takes a component before it can come upon anything but a directory.
        Errno::ENOTDIR if refusal.components == 0 => format!("descriptor {number} is no directory"),
        Errno::ENOTTY => format!("descriptor {number} is no directory"),
        Errno::EINVAL if call.asks_in_vain() => "the mark wants O_DIRECTORY".into(),
        Errno::EMFILE => "all 64 descriptors are open".into(),
        _ => return None,
    })
}
