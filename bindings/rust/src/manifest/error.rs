use crate::text::Quoted;
use crate::{Broken, Errno, Record};
use std::error::Error;
use std::fmt;

/// Why a manifest cannot be read, or no image be made of it: what is wrong, with what object, and
/// where in the text it is described.
///
/// ```
/// use ventolaire::{Manifest, Problem};
///
/// let error = Manifest::parse("dir /lab\nlink /lab/up\n").unwrap_err();
/// assert_eq!(error.to_string(), "line 2, column 13: expected a link's body, found the line's end");
///
/// let error = Manifest::parse("dir /lab\n  file /lab/..\n")?.build().unwrap_err();
/// let Problem::Broken { broken, .. } = &error.problem else { panic!("{error}") };
/// assert_eq!((broken.rule, broken.record), (5, 1));
/// assert_eq!((&error.path[..], error.position.unwrap().line), (&b"/lab/.."[..], 2));
/// assert_eq!(
///     error.to_string(),
///     "line 2, column 3: /lab/..: rule 5 broken by entry 1: its name is \"..\" (RULES 4.5c)"
/// );
///
/// let error = std::io::Error::from(error);
/// assert_eq!(error.kind(), std::io::ErrorKind::InvalidData);
/// # Ok::<(), ventolaire::ManifestError>(())
/// ```
#[derive(Clone, Debug, PartialEq, Eq)]
#[non_exhaustive]
pub struct ManifestError {
    /// Where it is described, if in a text.
    pub position: Option<Position>,
    /// The object, by its path: of a mount its point. Empty if no object is to blame.
    pub path: Vec<u8>,
    /// What is wrong.
    pub problem: Problem,
}

/// A place in a text.
///
/// ```
/// let error = ventolaire::Manifest::parse("dir /lab\n  dri /pool\n").unwrap_err();
/// assert_eq!(error.position.unwrap().to_string(), "line 2, column 3");
/// ```
#[derive(Clone, Copy, Debug, PartialEq, Eq, Hash, PartialOrd, Ord)]
#[non_exhaustive]
pub struct Position {
    /// The line; the first is 1.
    pub line: u64,
    /// The column, in characters; the first is 1. Each byte that is no text counts as one.
    pub column: u64,
}

impl fmt::Display for Position {
    fn fmt(&self, f: &mut fmt::Formatter) -> fmt::Result {
        write!(f, "line {}, column {}", self.line, self.column)
    }
}

/// What is wrong with a manifest.
#[derive(Clone, Debug, PartialEq, Eq)]
#[non_exhaustive]
pub enum Problem {
    /// Something else stands in the text than was expected there.
    #[non_exhaustive]
    Unexpected {
        /// What was expected.
        expected: &'static str,
        /// What is there, or what is wrong with it.
        found: String,
    },
    /// The path begins neither with a slash nor with a tree's name and a colon.
    NoPath,
    /// Another name than of letters, digits, `-`, `_` and `.` for a mount.
    NoName(String),
    /// It is described already, perhaps in this line.
    Twice(Option<Position>),
    /// What mount 0 shows is said already, perhaps in this line.
    RootTwice(Option<Position>),
    /// It would be an entry of this directory, which nothing describes.
    NoDirectory(Vec<u8>),
    /// It would be an entry of this, which is no directory.
    NotDirectory(Vec<u8>),
    /// A parent is given to what has a name, and so has one.
    Parents,
    /// It would be a second name, and is a tree's name alone or `/`: none in a directory.
    Nameless,
    /// It speaks of this object, which nothing describes.
    NoObject(Vec<u8>),
    /// It speaks of this, which is a second name, where a first one is wanted.
    SecondName(Vec<u8>),
    /// It speaks of a mount of this name, which there is not.
    NoMount(String),
    /// Another mount has this name.
    MountTwice(String),
    /// The proved builder has refused it.
    #[non_exhaustive]
    Broken {
        /// The rule, and the number of the record.
        broken: Broken,
        /// The record, if it is one: not the image as a whole (rules 1 and 3).
        record: Option<Record>,
        /// The broken sentence's number in docs/RULES.md.
        clause: &'static str,
        /// What breaks it, with paths in place of nodes.
        reason: String,
    },
    /// A reason that this crate does not know.
    Other(Errno),
}

impl fmt::Display for ManifestError {
    fn fmt(&self, f: &mut fmt::Formatter) -> fmt::Result {
        if let Some(position) = self.position {
            write!(f, "{position}: ")?;
        }
        match (&self.problem, &self.path[..]) {
            // Of no object yet.
            (Problem::Unexpected { .. }, _) => {}
            (Problem::NoPath, path) => write!(f, "{}: ", Quoted(path))?,
            // A tree's name has its colon.
            (_, path @ [.., b':']) if !path.contains(&b'/') => write!(f, "{} ", Quoted(path))?,
            (_, path) => write!(f, "{}: ", Quoted(path))?,
        }
        write!(f, "{}", self.problem)
    }
}

impl fmt::Display for Problem {
    fn fmt(&self, f: &mut fmt::Formatter) -> fmt::Result {
        match self {
            Problem::Unexpected { expected, found } => write!(f, "expected {expected}, {found}"),
            Problem::NoPath => f.write_str("it begins with no / and with no tree's name and :"),
            Problem::NoName(name) => {
                let name = Quoted(name.as_bytes());
                write!(f, "a mount's name has letters, digits, -, _ and ., unlike {name}")
            }
            Problem::Twice(None) => f.write_str("it is described twice"),
            Problem::Twice(Some(first)) => write!(f, "it is described already, in {first}"),
            Problem::RootTwice(None) => f.write_str("the root is given twice"),
            Problem::RootTwice(Some(first)) => write!(f, "the root is given already, in {first}"),
            Problem::NoDirectory(path) => write!(f, "no directory {} is described", Quoted(path)),
            Problem::NotDirectory(path) => write!(f, "{} is no directory", Quoted(path)),
            Problem::Parents => f.write_str("it has a name, and needs no parent"),
            Problem::Nameless => f.write_str("it has no name, and cannot be a second one"),
            Problem::NoObject(path) => write!(f, "nothing describes {}", Quoted(path)),
            Problem::SecondName(path) => write!(f, "{} is a second name", Quoted(path)),
            Problem::NoMount(name) => write!(f, "no mount is named {}", Quoted(name.as_bytes())),
            Problem::MountTwice(name) => write!(f, "two mounts are named {name}"),
            Problem::Broken { broken, record, clause, reason } => {
                write!(f, "rule {} broken", broken.rule)?;
                if let Some(record) = record {
                    write!(f, " by {record}")?;
                }
                write!(f, ": {reason} (RULES {clause})")
            }
            Problem::Other(errno) => write!(f, "{errno}"),
        }
    }
}

impl Error for ManifestError {}

/// With the whole error in it, of the kind `InvalidData`.
impl From<ManifestError> for std::io::Error {
    fn from(error: ManifestError) -> Self {
        std::io::Error::new(std::io::ErrorKind::InvalidData, error)
    }
}
