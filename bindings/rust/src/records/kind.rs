use super::Node;
use core::fmt;

/// What a node is, whatever it holds: by [`Node::kind`].
///
/// ```
/// use ventolaire::{bench_tree, Kind, Table};
///
/// let table = Table::new(bench_tree::IMAGE)?;
/// let links = table.nodes().filter(|(_, node)| node.kind() == Kind::Link);
/// assert_eq!(links.map(|(number, _)| number).collect::<Vec<_>>(), [4, 5, 6, 11]);
/// assert_eq!(Kind::Link.to_string(), "symbolic link");
/// # Ok::<(), ventolaire::Broken>(())
/// ```
#[derive(Clone, Copy, Debug, PartialEq, Eq, Hash)]
#[non_exhaustive]
pub enum Kind {
    /// A directory.
    Directory,
    /// A file.
    File,
    /// A symbolic link.
    Link,
    /// A magic link.
    MagicLink,
}

impl Node<'_> {
    /// Its kind.
    ///
    /// ```
    /// use ventolaire::{bench_tree, Kind, Table};
    ///
    /// let table = Table::new(bench_tree::IMAGE)?;
    /// assert_eq!(table.node(10).map(|node| node.kind()), Some(Kind::MagicLink));
    /// # Ok::<(), ventolaire::Broken>(())
    /// ```
    pub const fn kind(&self) -> Kind {
        match self {
            Node::Directory { .. } => Kind::Directory,
            Node::File {} => Kind::File,
            Node::Link { .. } => Kind::Link,
            Node::MagicLink { .. } => Kind::MagicLink,
        }
    }
}

impl fmt::Display for Kind {
    fn fmt(&self, f: &mut fmt::Formatter) -> fmt::Result {
        // By `pad`, so that a list can have them in a column.
        f.pad(match self {
            Kind::Directory => "directory",
            Kind::File => "file",
            Kind::Link => "symbolic link",
            Kind::MagicLink => "magic link",
        })
    }
}
