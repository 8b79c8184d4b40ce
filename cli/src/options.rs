//! Options told from operands.

use crate::escape;
use std::ffi::{OsStr, OsString};
use std::os::unix::ffi::OsStrExt;

/// An option: its name, its letter, and whether it takes a value.
struct Known {
    name: &'static str,
    letter: &'static str,
    wants_value: bool,
}

const fn known(name: &'static str, letter: &'static str, wants_value: bool) -> Known {
    Known { name, letter, wants_value }
}

const OPTIONS: &[Known] = &[
    known("--help", "-h", false),
    known("--json", "", false),
    known("--manifest", "", false),
    known("--dot", "", false),
    known("--handle", "", true),
    known("--mark", "", false),
    known("--flag", "", true),
    known("--resolve", "", true),
    known("--how", "", true),
    known("--paths-from", "", true),
    known("--names-from", "", true),
    known("--null", "-0", false),
    known("--output", "-o", true),
    known("--force", "", false),
    known("--mounts", "", false),
    known("--check", "", false),
    known("--common", "", true),
];

/// The arguments behind the command.
#[derive(Default)]
pub struct Parts {
    pub operands: Vec<OsString>,
    /// Options by their names, in their order, with their values.
    pub options: Vec<(&'static str, OsString)>,
}

impl Parts {
    pub fn of(mut arguments: impl Iterator<Item = OsString>) -> Result<Self, String> {
        let mut parts = Parts::default();
        while let Some(argument) = arguments.next() {
            if argument == "--" {
                parts.operands.extend(arguments);
                break;
            }
            match argument.as_encoded_bytes() {
                [b'-', _, ..] => parts.options.push(option(&argument, &mut arguments)?),
                _ => parts.operands.push(argument),
            }
        }
        Ok(parts)
    }

    pub fn has(&self, option: &str) -> bool {
        self.options.iter().any(|(name, _)| *name == option)
    }

    /// The value of an option: the last, if it is given more than once.
    pub fn value(&self, option: &str) -> Option<&OsString> {
        let mut given = self.options.iter().rev();
        given.find(|(name, _)| *name == option).map(|(_, value)| value)
    }

    /// All values of an option.
    pub fn values<'a>(&'a self, option: &'a str) -> impl Iterator<Item = &'a OsString> {
        self.options.iter().filter(move |(name, _)| *name == option).map(|(_, value)| value)
    }

    /// Refuses options that a command does not have.
    pub fn allow(&self, command: &str, options: &[&str]) -> Result<(), String> {
        match self.options.iter().find(|(name, _)| !options.contains(name)) {
            Some((option, _)) => Err(format!("{command} has no option {option}")),
            None => Ok(()),
        }
    }

    /// Refuses two options together.
    pub fn exclude(&self, one: &str, other: &str) -> Result<(), String> {
        match self.has(one) && self.has(other) {
            true => Err(format!("{one} and {other} exclude each other")),
            false => Ok(()),
        }
    }
}

/// An option with its value, which is joined to it or the next argument.
fn option(
    argument: &OsStr,
    arguments: &mut impl Iterator<Item = OsString>,
) -> Result<(&'static str, OsString), String> {
    let (name, joined) = split(argument);
    let is_named = |known: &&Known| [known.name, known.letter].contains(&name);
    let Known { name, wants_value, .. } = *OPTIONS
        .iter()
        .find(is_named)
        .ok_or_else(|| format!("there is no option {}", escape::name(argument)))?;
    let value = match (wants_value, joined) {
        (true, None) => arguments.next().ok_or(format!("{name} wants a value"))?,
        (true, Some(value)) => value.into(),
        (false, None) => OsString::new(),
        (false, Some(_)) => return Err(format!("{name} takes no value")),
    };
    Ok((name, value))
}

/// An option's name, and the value behind an equals sign. What is no text is no
/// option's name.
fn split(argument: &OsStr) -> (&str, Option<&OsStr>) {
    let bytes = argument.as_bytes();
    let at = bytes.iter().position(|byte| *byte == b'=');
    let (name, joined) = match at {
        Some(at) => (&bytes[..at], Some(OsStr::from_bytes(&bytes[at + 1..]))),
        None => (bytes, None),
    };
    (str::from_utf8(name).unwrap_or("?"), joined)
}
