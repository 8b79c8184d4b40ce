//! Manifests, written.

use super::{Item, Kind, Manifest};
use crate::text::Quoted;
use std::fmt;

/// A line for each object, in the order in which they were added. Read again it is the same
/// manifest; only what is no path, and so is refused by `build`, is refused there already.
///
/// ```
/// let mut manifest = ventolaire::Manifest::new();
/// manifest.directory("/lab").link(b"/lab/caf\xe9", "a b");
/// assert_eq!(manifest.to_string(), "dir   /lab\nlink  /lab/caf\\xe9 'a b'\n");
/// ```
impl fmt::Display for Manifest {
    fn fmt(&self, f: &mut fmt::Formatter) -> fmt::Result {
        self.lines.iter().try_for_each(|line| writeln!(f, "{}", line.item))
    }
}

impl fmt::Display for Item {
    fn fmt(&self, f: &mut fmt::Formatter) -> fmt::Result {
        match self {
            Item::Node { object, kind } => match kind {
                Kind::Directory(parent) => {
                    write!(f, "dir   {object}")?;
                    behind(f, "in", parent)
                }
                Kind::File => write!(f, "file  {object}"),
                Kind::Link(body) => write!(f, "link  {object} {}", Quoted(body)),
                Kind::Magic { target, mount } => {
                    write!(f, "magic {object} {target}")?;
                    behind(f, "in", &quoted(mount))
                }
            },
            Item::Hard { object, other } => write!(f, "hard  {object} {other}"),
            Item::Root { object } => write!(f, "root  {object}"),
            Item::Mount { root, point, parent, name } => {
                write!(f, "mount {root} {point}")?;
                behind(f, "in", &quoted(parent))?;
                behind(f, "as", &quoted(name))
            }
        }
    }
}

/// A word with what stands behind it, if anything does.
fn behind(f: &mut fmt::Formatter, word: &str, what: &Option<impl fmt::Display>) -> fmt::Result {
    what.as_ref().map_or(Ok(()), |what| write!(f, " {word} {what}"))
}

/// The name of a mount, which may be none that can be read.
fn quoted(name: &Option<String>) -> Option<Quoted<'_>> {
    name.as_ref().map(|name| Quoted(name.as_bytes()))
}
