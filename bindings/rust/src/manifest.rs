//! Tables described by path.

mod error;
mod layout;
mod numbers;
mod object;
mod of_table;
mod read;
mod records;
mod write;

pub use error::{ManifestError, Position, Problem};

use crate::AsPath;
use object::Object;

/// What a table holds, by path: directories, files, links and mounts, in any order. An image is
/// made of it, which [`Table`](crate::Table) takes.
///
/// ```
/// use ventolaire::{Manifest, OpenHow, Resolve, Table};
///
/// let mut manifest = Manifest::new();
/// manifest
///     .directory("/lab")
///     .file("/lab/run")
///     .link("/lab/latest", "run")
///     .link("/lab/out", "/etc")
///     .directory("/lab/pool")
///     // A second tree, and its mount.
///     .directory("disk:")
///     .file("disk:/tare")
///     .mount("disk:", "/lab/pool");
/// let image = manifest.build()?;
///
/// let table = Table::new(&image)?;
/// let lab = table.resolve(table.root(), "lab", OpenHow::new())?.place;
/// assert!(table.resolve(lab, "latest", Resolve::BENEATH).is_ok());
/// assert!(table.resolve(lab, "pool/tare", Resolve::BENEATH).is_ok());
/// let refusal = table.resolve(lab, "out", Resolve::BENEATH).unwrap_err();
/// assert_eq!(refusal.to_string(), "EXDEV (18); 1 component, 0 links");
/// # Ok::<(), Box<dyn std::error::Error>>(())
/// ```
///
/// An object goes by its tree and the names that lead to it there: `/lab/run` in the main tree,
/// `disk:/tare` in the tree named `disk`. A tree's name has letters, digits, `-`, `_` and `.`, and
/// is not in the image. Slashes may be repeated, and may stand at the end. No path leads through
/// a link or a mount. Each object is described once, and the directory that names it too, before
/// it or behind it; `/` need not be.
///
/// What has a tree's name alone for a path, such as `disk:` or `spare:`, has no name in any
/// directory: the top of a second tree, a directory that only a mount or a magic link shows, a
/// file that only a magic link does.
///
/// One tree gives one image, whatever the order in which it was described. The nodes of the tree
/// that mount 0 shows come first, then those of the trees that other mounts show, in the order of
/// these mounts, then other trees, then files and links that no directory names. In a tree a
/// directory comes before what it names, and the names in their order, so that the numbers run
/// down a drawn tree; directories without a name come behind all that their parent names. Trees
/// that no mount shows, and what has no name, come in the order of the names that the manifest
/// gives them, the shorter first. Mounts come after the one that they hang in, in the order of
/// their points.
///
/// The image is the proved builder's. What that refuses, and what no records can be made of, is
/// told with the path that it comes from: [`ManifestError`].
///
/// As text a manifest has an object in each line; docs/MANIFEST.md says what is written there.
/// [`Manifest::parse`] reads one, and it prints as one.
#[derive(Clone, Debug, Default)]
pub struct Manifest {
    lines: Vec<Line>,
}

/// What is described in a line, and where this stands in a text.
#[derive(Clone, Debug)]
struct Line {
    position: Option<Position>,
    item: Item,
}

#[derive(Clone, Debug)]
enum Item {
    Node {
        object: Object,
        kind: Kind,
    },
    /// A second name of what another object is.
    Hard {
        object: Object,
        other: Object,
    },
    /// What mount 0 shows.
    Root {
        object: Object,
    },
    Mount {
        root: Object,
        point: Object,
        parent: Option<String>,
        name: Option<String>,
    },
}

#[derive(Clone, Debug)]
enum Kind {
    /// With the parent of one that has no name.
    Directory(Option<Object>),
    File,
    Link(Vec<u8>),
    Magic {
        target: Object,
        mount: Option<String>,
    },
}

/// A path, or a path as it is seen in a mount: `("disk:/tare", "pool")` is `disk:/tare` in the
/// mount named `pool`. A path alone is one in mount 0.
///
/// ```
/// use ventolaire::{Manifest, OpenHow, Table};
///
/// let mut manifest = Manifest::new();
/// manifest.directory("/pool").directory("disk:").file("disk:/tare");
/// manifest.mount_as("pool", "disk:", "/pool");
/// manifest.magic_link("/fd", ("disk:/tare", "pool"));
/// let image = manifest.build()?;
/// let table = Table::new(&image)?;
/// assert_eq!(table.resolve(table.root(), "fd", OpenHow::new())?.place.mount, 1);
/// # Ok::<(), Box<dyn std::error::Error>>(())
/// ```
pub trait AsSeen {
    /// The path, and the name of the mount.
    ///
    /// ```
    /// use ventolaire::AsSeen;
    ///
    /// assert_eq!(("disk:/tare", "pool").seen(), (&b"disk:/tare"[..], Some("pool")));
    /// ```
    fn seen(&self) -> (&[u8], Option<&str>);
}

impl<P: AsPath> AsSeen for P {
    fn seen(&self) -> (&[u8], Option<&str>) {
        (self.path_bytes(), None)
    }
}

impl<P: AsPath, M: AsRef<str>> AsSeen for (P, M) {
    fn seen(&self) -> (&[u8], Option<&str>) {
        (self.0.path_bytes(), Some(self.1.as_ref()))
    }
}

impl Manifest {
    /// A manifest that describes nothing: of a table with one directory, empty.
    ///
    /// ```
    /// assert_eq!(ventolaire::Manifest::new().build()?.len(), 40);
    /// # Ok::<(), ventolaire::ManifestError>(())
    /// ```
    pub fn new() -> Self {
        Manifest::default()
    }

    /// Adds a directory.
    ///
    /// ```
    /// let mut manifest = ventolaire::Manifest::new();
    /// manifest.directory("/lab/cal").directory("/lab");
    /// assert_eq!(manifest.build()?.len(), 40 + 2 * (12 + 8 + 3));
    /// # Ok::<(), ventolaire::ManifestError>(())
    /// ```
    pub fn directory(&mut self, path: impl AsPath) -> &mut Self {
        self.node(path, Kind::Directory(None))
    }

    /// Adds a directory that no entry names, with the directory that ".." leads to from it. Its
    /// path is a tree's name.
    ///
    /// ```
    /// let mut manifest = ventolaire::Manifest::new();
    /// manifest.nameless("spare:", "/lab").file("spare:/run").directory("/lab");
    /// manifest.magic_link("/fd", "spare:");
    /// assert_eq!(manifest.to_string().lines().next(), Some("dir   spare: in /lab"));
    /// # manifest.build()?;
    /// # Ok::<(), ventolaire::ManifestError>(())
    /// ```
    pub fn nameless(&mut self, path: impl AsPath, parent: impl AsPath) -> &mut Self {
        self.node(path, Kind::Directory(Some(Object::of(parent.path_bytes()))))
    }

    /// Adds a file.
    ///
    /// ```
    /// let mut manifest = ventolaire::Manifest::new();
    /// manifest.directory("/lab").file("/lab/run");
    /// # manifest.build()?;
    /// # Ok::<(), ventolaire::ManifestError>(())
    /// ```
    pub fn file(&mut self, path: impl AsPath) -> &mut Self {
        self.node(path, Kind::File)
    }

    /// Adds a symbolic link with its body, 1 to 4,095 bytes without a zero.
    ///
    /// ```
    /// let mut manifest = ventolaire::Manifest::new();
    /// manifest.link("/latest", "lab/run");
    /// # manifest.build()?;
    /// # Ok::<(), ventolaire::ManifestError>(())
    /// ```
    pub fn link(&mut self, path: impl AsPath, body: impl AsPath) -> &mut Self {
        self.node(path, Kind::Link(body.path_bytes().to_vec()))
    }

    /// Adds a magic link to a directory or file.
    ///
    /// ```
    /// let mut manifest = ventolaire::Manifest::new();
    /// manifest.file("/run").magic_link("/fd", "/run");
    /// # manifest.build()?;
    /// # Ok::<(), ventolaire::ManifestError>(())
    /// ```
    pub fn magic_link(&mut self, path: impl AsPath, target: impl AsSeen) -> &mut Self {
        let (target, mount) = target.seen();
        let (target, mount) = (Object::of(target), mount.map(String::from));
        self.node(path, Kind::Magic { target, mount })
    }

    /// Adds a second name: a hard link to a file or link. A directory has a second name in its
    /// own parent alone.
    ///
    /// ```
    /// use ventolaire::{Manifest, Table};
    ///
    /// let mut manifest = Manifest::new();
    /// manifest.file("/run").hard_link("/again", "/run");
    /// let image = manifest.build()?;
    /// let table = Table::new(&image)?;
    /// assert_eq!(table.lookup(0, "again")?.node, table.lookup(0, "run")?.node);
    /// # Ok::<(), Box<dyn std::error::Error>>(())
    /// ```
    pub fn hard_link(&mut self, path: impl AsPath, other: impl AsPath) -> &mut Self {
        let (object, other) = (Object::of(path.path_bytes()), Object::of(other.path_bytes()));
        self.add(None, Item::Hard { object, other })
    }

    /// Adds a mount that shows the directory `root` upon the directory `point`.
    ///
    /// ```
    /// let mut manifest = ventolaire::Manifest::new();
    /// manifest.directory("/pool").directory("disk:").mount("disk:", "/pool");
    /// # manifest.build()?;
    /// # Ok::<(), ventolaire::ManifestError>(())
    /// ```
    pub fn mount(&mut self, root: impl AsPath, point: impl AsSeen) -> &mut Self {
        self.add_mount(root, point, None)
    }

    /// Adds a mount by a name, in which other paths can then be seen: [`AsSeen`].
    ///
    /// ```
    /// let mut manifest = ventolaire::Manifest::new();
    /// manifest.directory("/pool").directory("disk:").directory("disk:/lab");
    /// manifest.mount_as("pool", "disk:", "/pool").mount("/", ("disk:/lab", "pool"));
    /// # manifest.build()?;
    /// # Ok::<(), ventolaire::ManifestError>(())
    /// ```
    pub fn mount_as(
        &mut self,
        name: impl AsRef<str>,
        root: impl AsPath,
        point: impl AsSeen,
    ) -> &mut Self {
        self.add_mount(root, point, Some(name.as_ref().into()))
    }

    /// Says which directory mount 0 shows, where it is not `/`.
    ///
    /// ```
    /// use ventolaire::{Manifest, Table};
    ///
    /// let mut manifest = Manifest::new();
    /// manifest.directory("/lab").root("/lab");
    /// let image = manifest.build()?;
    /// assert_eq!(Table::new(&image)?.root().node, 1);
    /// # Ok::<(), Box<dyn std::error::Error>>(())
    /// ```
    pub fn root(&mut self, path: impl AsPath) -> &mut Self {
        self.add(None, Item::Root { object: Object::of(path.path_bytes()) })
    }

    /// The image.
    ///
    /// ```
    /// let mut manifest = ventolaire::Manifest::new();
    /// let error = manifest.directory("/lab").file("/lba/run").build().unwrap_err();
    /// assert_eq!(error.to_string(), "/lba/run: no directory /lba is described");
    /// ```
    pub fn build(&self) -> Result<Vec<u8>, ManifestError> {
        records::build(&layout::Layout::of(self)?)
    }

    fn node(&mut self, path: impl AsPath, kind: Kind) -> &mut Self {
        self.add(None, Item::Node { object: Object::of(path.path_bytes()), kind })
    }

    fn add_mount(
        &mut self,
        root: impl AsPath,
        point: impl AsSeen,
        name: Option<String>,
    ) -> &mut Self {
        let ((point, parent), root) = (point.seen(), Object::of(root.path_bytes()));
        let parent = parent.map(String::from);
        self.add(None, Item::Mount { root, point: Object::of(point), parent, name })
    }

    fn add(&mut self, position: Option<Position>, item: Item) -> &mut Self {
        self.lines.push(Line { position, item });
        self
    }
}
