//! A real directory, read from its top down, in the order of the names.

use super::left::{Left, Reason};
use super::mounts::{Mount, Mounts};
use super::progress::Progress;
use super::refused;
use super::tree::{Identity, Kind, Tree};
use crate::escape;
use std::collections::{HashMap, HashSet};
use std::ffi::{OsStr, OsString};
use std::fs::{self, Metadata};
use std::io;
use std::os::unix::ffi::{OsStrExt, OsStringExt};
use std::os::unix::fs::MetadataExt;
use std::path::{Path, PathBuf};
use std::rc::Rc;
use ventolaire::Manifest;

/// What was read.
pub struct Packed {
    pub tree: Tree,
    pub left: Left,
    /// How many mounts became directories, and how many became files.
    pub as_directories: usize,
    pub as_files: usize,
}

pub struct Walk<'a> {
    directory: &'a Path,
    /// Whether mounts stay mounts.
    keeps: bool,
    mounts: Mounts,
    /// The directory's path without links, as mounts are listed by it.
    real: PathBuf,
    progress: Progress,
    lengths: Lengths,
    packed: Packed,
    /// What is still to be read of this mount: names in their directories, the last one first.
    waiting: Vec<(Rc<Folder>, OsString)>,
    /// All mounts, by their numbers in the tree.
    found: Vec<Found>,
    /// Names that were left out or became files, so that another mount's are not told again.
    told: HashSet<(usize, OsString)>,
}

/// A mount that was met. It is read when the one it hangs in is.
struct Found {
    mount: Mount,
    /// From the directory that is packed.
    path: PathBuf,
}

/// A directory whose names are read.
struct Folder {
    node: usize,
    path: PathBuf,
    mount: Mount,
    /// The mount's number in the tree.
    number: usize,
}

/// One name of a directory.
struct Met<'a> {
    folder: &'a Folder,
    name: &'a OsStr,
    path: PathBuf,
    data: Metadata,
    /// If it is a mount's point.
    mount: Option<Mount>,
}

impl<'a> Walk<'a> {
    pub fn new(directory: &'a OsStr, keeps: bool, progress: Progress) -> Self {
        Walk {
            directory: Path::new(directory),
            keeps,
            mounts: Mounts::of_system(),
            real: PathBuf::new(),
            progress,
            lengths: Lengths::default(),
            packed: Packed {
                tree: Tree::new(),
                left: Left::default(),
                as_directories: 0,
                as_files: 0,
            },
            waiting: Vec::new(),
            found: Vec::new(),
            told: HashSet::new(),
        }
    }

    pub fn run(mut self) -> Result<Packed, String> {
        let top = Path::new("");
        self.real = fs::canonicalize(self.directory).map_err(|error| self.cannot(top, &error))?;
        let device = self.data(top)?.dev();
        let mount = self.mounts.of_directory(&self.real, device);
        self.found.push(Found { mount, path: top.into() });
        let mut number = 0;
        while number < self.found.len() {
            self.read_mount(number)?;
            number += 1;
        }
        Ok(self.packed)
    }

    /// Reads a mount whole: also where it shows what is known already, it may show what another
    /// mount hides there.
    fn read_mount(&mut self, number: usize) -> Result<(), String> {
        let Found { mount, path } = &self.found[number];
        let (mount, path) = (*mount, path.clone());
        let data = self.data(&path)?;
        let node = self.packed.tree.show(number, Identity::from(&data), &path);
        self.open(Folder { node, path, mount, number }, &data)?;
        while let Some((folder, name)) = self.waiting.pop() {
            self.meet(&folder, &name)?;
        }
        Ok(())
    }

    /// Takes the names of a directory.
    fn open(&mut self, folder: Folder, data: &Metadata) -> Result<(), String> {
        let names = self.names(&folder.path, data);
        let names = names.map_err(|error| self.cannot(&folder.path, &error))?;
        let folder = Rc::new(folder);
        self.waiting.extend(names.into_iter().rev().map(|name| (folder.clone(), name)));
        Ok(())
    }

    fn names(&self, path: &Path, data: &Metadata) -> io::Result<Vec<OsString>> {
        let path = self.directory.join(path);
        let names = fs::read_dir(&path)?.map(|entry| entry.map(|entry| entry.file_name()));
        let mut names = names.collect::<io::Result<Vec<OsString>>>()?;
        names.sort_unstable();
        // A link that was put in its place would have been followed.
        let is_same = Identity::from(&fs::symlink_metadata(&path)?) == Identity::from(data);
        is_same.then_some(names).ok_or_else(|| io::Error::other("it was replaced meanwhile"))
    }

    fn meet(&mut self, folder: &Folder, name: &OsStr) -> Result<(), String> {
        let path = folder.path.join(name);
        self.progress.read(self.directory.join(&path).as_os_str().as_bytes());
        let data = self.data(&path)?;
        let mount = self.mounts.entered(folder.mount, &self.real.join(&path), data.dev());
        let met = Met { folder, name, path, data, mount };
        if !self.lengths.is_name(name.len()) {
            self.leave_out(&met, Reason::LongName);
        } else if met.data.is_dir() {
            self.meet_directory(met)?;
        } else {
            self.meet_leaf(&met)?;
        }
        match self.packed.tree.is_full() {
            None => Ok(()),
            Some(error) => {
                let why = refused(self.directory.as_os_str(), &self.packed.tree, &error);
                Err(format!("{why}, with the rest not yet read"))
            }
        }
    }

    fn meet_directory(&mut self, met: Met) -> Result<(), String> {
        let Met { folder, name, path, data, mount } = met;
        let tree = &mut self.packed.tree;
        if let (Some(mount), true) = (mount, self.keeps) {
            tree.mount(folder.number, folder.node, name.as_bytes());
            self.found.push(Found { mount, path });
            return Ok(());
        }
        self.packed.as_directories += usize::from(mount.is_some());
        // Without mounts a directory that is seen twice is two.
        let identity = self.keeps.then(|| Identity::from(&data));
        let node = tree.directory(folder.node, name.as_bytes(), identity);
        let (mount, number) = (mount.unwrap_or(folder.mount), folder.number);
        self.open(Folder { node, path, mount, number }, &data)
    }

    fn meet_leaf(&mut self, met: &Met) -> Result<(), String> {
        let kind = met.data.file_type();
        let body = match kind {
            _ if kind.is_file() => None,
            _ if kind.is_symlink() => {
                let body = fs::read_link(self.directory.join(&met.path));
                Some(body.map_err(|error| self.cannot(&met.path, &error))?)
            }
            _ => {
                self.leave_out(met, Reason::of(kind));
                return Ok(());
            }
        };
        let body = body.map(|body| body.into_os_string().into_vec());
        match body.as_ref().map(Vec::len) {
            Some(0) => self.leave_out(met, Reason::EmptyBody),
            Some(len) if !self.lengths.is_body(len) => self.leave_out(met, Reason::LongBody),
            _ => {
                self.packed.as_files += usize::from(met.mount.is_some() && self.is_new(met));
                let kind = body.map_or(Kind::File, Kind::Link);
                let identity = Identity::from(&met.data);
                self.packed.tree.leaf(met.folder.node, met.name.as_bytes(), identity, kind);
            }
        }
        Ok(())
    }

    fn leave_out(&mut self, met: &Met, reason: Reason) {
        if self.is_new(met) {
            self.packed.left.add(&self.directory.join(&met.path), reason);
        }
    }

    /// Whether nothing was told of a name yet.
    fn is_new(&mut self, met: &Met) -> bool {
        self.told.insert((met.folder.node, met.name.into()))
    }

    /// What a path leads to, itself if it is a link. Only the directory that is packed may be
    /// given by a link: its path ends in a slash.
    fn data(&self, path: &Path) -> Result<Metadata, String> {
        let data = fs::symlink_metadata(self.directory.join(path));
        data.map_err(|error| self.cannot(path, &error))
    }

    fn cannot(&self, path: &Path, error: &io::Error) -> String {
        let path = match path.as_os_str().is_empty() {
            true => self.directory.into(),
            false => self.directory.join(path),
        };
        format!("cannot pack {}: {error}", escape::name(path.as_os_str()))
    }
}

/// Which lengths a table can hold, by the builder's word. Each is asked once: in what a system
/// tells of itself nothing else can be wrong with a name or a body.
#[derive(Default)]
struct Lengths {
    names: HashMap<usize, bool>,
    bodies: HashMap<usize, bool>,
}

impl Lengths {
    fn is_name(&mut self, len: usize) -> bool {
        let name = || [vec![b'/'], vec![b'n'; len]].concat();
        *self.names.entry(len).or_insert_with(|| Manifest::new().file(name()).build().is_ok())
    }

    fn is_body(&mut self, len: usize) -> bool {
        let body = || vec![b'b'; len];
        *self
            .bodies
            .entry(len)
            .or_insert_with(|| Manifest::new().link("/l", body()).build().is_ok())
    }
}

#[cfg(test)]
mod tests {
    use super::*;

    #[test]
    fn the_builder_knows_the_lengths() {
        let mut lengths = Lengths::default();
        assert_eq!(
            [1, 255, 256, 70_000].map(|len| lengths.is_name(len)),
            [true, true, false, false]
        );
        assert_eq!(
            [0, 1, 4_095, 4_096].map(|len| lengths.is_body(len)),
            [false, true, true, false]
        );
        assert_eq!((lengths.names.len(), lengths.bodies.len()), (4, 4));
    }
}
