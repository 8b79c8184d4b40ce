//! The calls of a script.

use crate::options::Parts;
use crate::{arguments, escape};
use std::ffi::{OsStr, OsString};
use std::os::unix::ffi::OsStringExt;
use ventolaire::text::Words;
use ventolaire::{Descriptors, Flags, OpenHow, Opened, Refusal};

/// The calls with their operands and options.
const CALLS: &[(&str, &[&str], &[&str])] = &[
    ("open", &["NUMBER", "PATH"], &["--mark", "--flag", "--resolve", "--how"]),
    ("dup", &["NUMBER"], &[]),
    ("close", &["NUMBER"], &[]),
    ("mark", &["NUMBER"], &[]),
];

/// A call on descriptors.
pub struct Call {
    pub name: &'static str,
    /// The descriptor that it is made on.
    pub number: u64,
    kind: Kind,
}

enum Kind {
    Open(Open),
    Dup,
    Close,
    Mark,
}

struct Open {
    path: OsString,
    mark: bool,
    /// The bytes of the open_how.
    how: Vec<u8>,
}

/// What a call gives that is not refused.
pub enum Given {
    Opened(Opened),
    Copy(u64),
    Nothing,
}

impl Call {
    /// The call in a line. There is none in an empty one or a comment.
    pub fn read(line: &[u8]) -> Result<Option<Self>, String> {
        let line = line.trim_ascii_start();
        if line.is_empty() || line.starts_with(b"#") {
            return Ok(None);
        }
        let words = Words::of(line).map(|word| word.map(|word| OsString::from_vec(word.bytes)));
        let words: Result<Vec<OsString>, _> = words.collect();
        let mut words = words.map_err(|error| error.to_string())?.into_iter();
        let first = words.next().unwrap_or_default();
        let (name, wanted, options) =
            *CALLS.iter().find(|(name, ..)| first == *name).ok_or_else(|| {
                let names: Vec<&str> = CALLS.iter().map(|(name, ..)| *name).collect();
                let first = escape::name(&first);
                format!("no call is named {first}; there are {}", names.join(", "))
            })?;
        let parts = Parts::of(words)?;
        parts.allow(name, options)?;
        let Some((number, kind)) = Kind::of(name, &parts)? else {
            return Err(match parts.operands.get(wanted.len()) {
                Some(surplus) => format!("{name} has no use for {}", escape::name(surplus)),
                None => format!("{name} wants {}", wanted.join(" ")),
            });
        };
        let number = arguments::number(number)
            .ok_or_else(|| format!("{name} wants a number, not {}", escape::name(number)))?;
        Ok(Some(Call { name, number, kind }))
    }

    /// Makes the call.
    pub fn make(&self, on: &mut Descriptors) -> Result<Given, Refusal> {
        let number = self.number;
        match &self.kind {
            Kind::Open(Open { path, mark, how }) => {
                on.open_raw(number, *mark, path, how).map(Given::Opened)
            }
            Kind::Dup => on.duplicate(number).map(Given::Copy),
            Kind::Close => on.close(number).map(|()| Given::Nothing),
            Kind::Mark => on.set_mark(number).map(|()| Given::Nothing),
        }
    }

    /// Whether it asks for the mark without O_DIRECTORY, by an open_how that has flags.
    pub fn asks_in_vain(&self) -> bool {
        let Kind::Open(Open { mark: true, how, .. }) = &self.kind else { return false };
        let flags = how.first_chunk().filter(|_| how.len() >= OpenHow::LEN);
        let flags = flags.map(|bytes| Flags::from_bits_retain(u64::from_le_bytes(*bytes)));
        flags.is_some_and(|flags| !flags.contains(Flags::DIRECTORY))
    }
}

impl Kind {
    /// By a call's name, with its number; none if there are too few operands or too many.
    fn of<'a>(name: &str, parts: &'a Parts) -> Result<Option<(&'a OsStr, Self)>, String> {
        let (number, kind) = match (name, &parts.operands[..]) {
            ("open", [number, path]) => {
                let (mark, how) = (parts.has("--mark"), arguments::how(parts)?);
                (number, Kind::Open(Open { path: path.clone(), mark, how }))
            }
            ("dup", [number]) => (number, Kind::Dup),
            ("close", [number]) => (number, Kind::Close),
            ("mark", [number]) => (number, Kind::Mark),
            _ => return Ok(None),
        };
        Ok(Some((number.as_os_str(), kind)))
    }
}
