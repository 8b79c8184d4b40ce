//! Two tables compared, where a part of the one reaches.

use super::walk::Covers;
use super::{good, Part, Reachable};
use crate::text::Quoted;
use crate::{Entries, Errno, Kind, Node, Place, Table};
use std::error::Error;
use std::fmt;

/// The first place of a part, in the order of [`Part::places`], that is not the same in another
/// table: by [`Part::in_common_with`].
///
/// ```
/// use ventolaire::{bench_tree, Difference, Handle, Table};
///
/// let table = Table::new(bench_tree::IMAGE)?;
/// let mut image = table.parts().build()?;
/// let tare = image.len() - b"tare/".len();
/// image[tare] = b'T';
///
/// let part = table.part(Handle::new(0, 1))?;
/// let difference = part.in_common_with(&Table::new(&image)?).unwrap_err();
/// assert_eq!((difference.place.node, &difference.path[..]), (11, &b"cal/t"[..]));
/// assert!(matches!(difference.what, Difference::Body { .. }));
/// assert_eq!(
///     difference.to_string(),
///     "(0,11), cal/t: its body is tare/, and Tare/ in the other table"
/// );
/// # Ok::<(), Box<dyn std::error::Error>>(())
/// ```
#[derive(Clone, Debug, PartialEq, Eq, Hash)]
#[non_exhaustive]
pub struct PartDifference {
    /// The place.
    pub place: Place,
    /// How it is reached from the handle, as [`Reachable::path`] tells it.
    pub path: Vec<u8>,
    /// What is not the same there.
    pub what: Difference,
}

/// What is not the same at a place: `here`, in the table of the part, and `there`, in the other.
/// As text it is a sentence about the place.
#[derive(Clone, Debug, PartialEq, Eq, Hash)]
#[non_exhaustive]
pub enum Difference {
    /// The handle, which is not good in the other table, but refused with this errno.
    Handle(Errno),
    /// The kind of the node.
    #[non_exhaustive]
    Kind {
        /// Here.
        here: Kind,
        /// There.
        there: Kind,
    },
    /// The mount that covers the place, if one does.
    #[non_exhaustive]
    Mount {
        /// Here.
        here: Option<u64>,
        /// There.
        there: Option<u64>,
    },
    /// The root of the mount that covers the place.
    #[non_exhaustive]
    Root {
        /// The mount, which is the same.
        mount: u64,
        /// Here, by the node's number.
        here: u64,
        /// There.
        there: u64,
    },
    /// How many entries the directory has.
    #[non_exhaustive]
    Count {
        /// Here.
        here: usize,
        /// There.
        there: usize,
    },
    /// A name in the directory.
    #[non_exhaustive]
    Name {
        /// Here.
        here: Vec<u8>,
        /// What has its place in the order of the names there.
        there: Vec<u8>,
    },
    /// The node that a name in the directory leads to.
    #[non_exhaustive]
    Node {
        /// The name, which is the same.
        name: Vec<u8>,
        /// Here, by the node's number.
        here: u64,
        /// There.
        there: u64,
    },
    /// The body of the symbolic link.
    #[non_exhaustive]
    Body {
        /// Here.
        here: Vec<u8>,
        /// There.
        there: Vec<u8>,
    },
}

/// The first difference, if there is one.
pub(super) fn first(part: &Part, other: &Table) -> Option<PartDifference> {
    if let Err(refusal) = good(other, part.handle().into()) {
        let what = Difference::Handle(refusal.errno);
        return Some(PartDifference { place: part.handle(), path: part.path(0), what });
    }
    let covers = Covers::of(other);
    part.places().find_map(|here| {
        let what = at(part, &here, other, &covers)?;
        Some(PartDifference { place: here.place, path: here.path(), what })
    })
}

/// The difference at one place. It is asked for behind all that the place is reached from, so the
/// node is in the other table too: it has the same name there, or is the root of the same mount.
fn at(part: &Part, here: &Reachable, other: &Table, covers: &Covers) -> Option<Difference> {
    let there = other.node(here.place.node).unwrap_or(Node::File {});
    let roots = [&part.covers, covers].map(|covers| covers.root_on(here.place));
    match (here.node.kind(), there.kind()) {
        (here, there) if here != there => Some(Difference::Kind { here, there }),
        _ if roots == [None; 2] => held(&here.node, &there),
        _ => mounted(roots),
    }
}

/// The difference between the roots of the mounts on a place, of which there is one at least.
fn mounted(roots: [Option<Place>; 2]) -> Option<Difference> {
    let [here, there] = roots.map(|root| root.map(|root| root.mount));
    match roots {
        [Some(one), Some(two)] if here == there => {
            let (mount, here, there) = (one.mount, one.node, two.node);
            (here != there).then_some(Difference::Root { mount, here, there })
        }
        _ => Some(Difference::Mount { here, there }),
    }
}

/// The difference between what two nodes of one kind hold, a magic link's target aside.
fn held(here: &Node, there: &Node) -> Option<Difference> {
    match (here, there) {
        (Node::Directory { entries: here, .. }, Node::Directory { entries: there, .. }) => {
            named(here, there)
        }
        (Node::Link { body: here, .. }, Node::Link { body: there, .. }) if here != there => {
            Some(Difference::Body { here: here.to_vec(), there: there.to_vec() })
        }
        _ => None,
    }
}

fn named(here: &Entries, there: &Entries) -> Option<Difference> {
    if here.len() != there.len() {
        return Some(Difference::Count { here: here.len(), there: there.len() });
    }
    let mut both = here.clone().zip(there.clone());
    both.find(|(here, there)| here != there).map(|(here, there)| match here.name == there.name {
        true => Difference::Node { name: here.name.to_vec(), here: here.node, there: there.node },
        false => Difference::Name { here: here.name.to_vec(), there: there.name.to_vec() },
    })
}

impl fmt::Display for PartDifference {
    fn fmt(&self, f: &mut fmt::Formatter) -> fmt::Result {
        match &self.path[..] {
            b"." => write!(f, "{}, the handle: {}", self.place, self.what),
            path => write!(f, "{}, {}: {}", self.place, Quoted(path), self.what),
        }
    }
}

impl Error for PartDifference {}

impl fmt::Display for Difference {
    fn fmt(&self, f: &mut fmt::Formatter) -> fmt::Result {
        match self {
            Difference::Handle(errno) => {
                return write!(f, "the other table refuses it with {errno}")
            }
            Difference::Kind { here, there } => write!(f, "it is a {here}, and a {there}"),
            Difference::Mount { here, there } => {
                write!(f, "{} covers it, and {}", mount(*here), mount(*there))
            }
            Difference::Root { mount, here, there } => {
                write!(f, "mount {mount}, which covers it, has the root {here}, and {there}")
            }
            Difference::Count { here, there } => {
                let entries = if *here == 1 { "entry" } else { "entries" };
                write!(f, "it has {here} {entries}, and {there}")
            }
            Difference::Name { here, there } => {
                write!(f, "it has the name {}, and in its place {}", Quoted(here), Quoted(there))
            }
            Difference::Node { name, here, there } => {
                write!(f, "{} in it is node {here}, and node {there}", Quoted(name))
            }
            Difference::Body { here, there } => {
                write!(f, "its body is {}, and {}", Quoted(here), Quoted(there))
            }
        }?;
        f.write_str(" in the other table")
    }
}

fn mount(number: Option<u64>) -> String {
    number.map_or("no mount".into(), |number| format!("mount {number}"))
}
