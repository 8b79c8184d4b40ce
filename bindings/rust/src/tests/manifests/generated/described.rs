//! A random tree, and manifests that describe it.

use crate::Manifest;
use data::dice::Dice;

/// Objects and mounts by their places in these lists.
#[derive(Clone)]
pub struct Described {
    /// The names of trees with their colons; of the main one none.
    pub labels: Vec<String>,
    /// The main tree's top first.
    pub objects: Vec<Object>,
    /// What directories name: directory, name, object.
    pub entries: Vec<(usize, Vec<u8>, usize)>,
    /// Mount 0 first.
    pub mounts: Vec<Mount>,
}

#[derive(Clone)]
pub struct Object {
    pub what: What,
    /// The tree whose name alone is its path, or the entry that it is described by.
    pub at: At,
}

#[derive(Clone, Copy)]
pub enum At {
    Tree(usize),
    Entry(usize),
}

#[derive(Clone)]
pub enum What {
    /// With the parent, itself at a top.
    Directory(usize),
    File,
    Link(Vec<u8>),
    /// The target's mount and object.
    Magic(usize, usize),
}

#[derive(Clone)]
pub struct Mount {
    pub root: usize,
    pub parent: usize,
    pub point: usize,
    pub name: String,
}

/// Parts of names and bodies: what is to be quoted or escaped, and what means something elsewhere.
const PIECES: [&[u8]; 24] = [
    b"a",
    b"b",
    b"B",
    b"ab",
    b"-",
    b"in",
    b"as",
    b"dir",
    b" ",
    b"\t",
    b"\n",
    b"\r",
    b"#",
    b"'",
    b"\"",
    b"\\",
    b":",
    b"...",
    b"\xff",
    b"\xe2\x80",
    b"\x1b[2J",
    b"\xc3\xa9",
    b"\xe2\x80\xae",
    b"\xf3\xa0\x81\x81",
];

fn word(dice: &mut Dice, most: usize) -> Vec<u8> {
    (0..dice.from(1, most)).flat_map(|_| PIECES[dice.below(24)]).copied().collect()
}

impl Described {
    pub fn some(dice: &mut Dice) -> Self {
        let top = Object { what: What::Directory(0), at: At::Tree(0) };
        let root = Mount { root: 0, parent: 0, point: 0, name: String::new() };
        let mut described = Described {
            labels: vec![String::new()],
            objects: vec![top],
            entries: Vec::new(),
            mounts: vec![root],
        };
        (0..dice.below(22)).for_each(|_| described.grow(dice));
        if dice.percent(20) {
            let root = described.directory(dice);
            (described.mounts[0].root, described.mounts[0].point) = (root, root);
        }
        (0..dice.below(5)).for_each(|_| described.mount(dice));
        described.aim(dice);
        described
    }

    fn grow(&mut self, dice: &mut Dice) {
        let directory = self.directory(dice);
        let next = self.objects.len();
        match dice.below(20) {
            0..=5 => self.named(dice, directory, What::Directory(directory)),
            6 | 7 => self.nameless(dice, What::Directory(next)),
            8 | 9 => self.nameless(dice, What::Directory(directory)),
            10..=15 => {
                let what = other(dice);
                self.named(dice, directory, what);
            }
            16 => {
                let what = other(dice);
                self.nameless(dice, what);
            }
            _ => self.second(dice, directory),
        }
    }

    fn nameless(&mut self, dice: &mut Dice, what: What) {
        let letters = b"aZ0-_.";
        let name: String =
            (0..dice.from(1, 3)).map(|_| char::from(dice.pick(&letters[..]))).collect();
        let label = name + ":";
        if !self.labels.contains(&label) {
            self.objects.push(Object { what, at: At::Tree(self.labels.len()) });
            self.labels.push(label);
        }
    }

    fn named(&mut self, dice: &mut Dice, directory: usize, what: What) {
        let (entry, object) = (self.entries.len(), self.objects.len());
        if self.enter(dice, directory, object) {
            self.objects.push(Object { what, at: At::Entry(entry) });
        }
    }

    /// A second name: of a directory in its parent, of anything else anywhere.
    fn second(&mut self, dice: &mut Dice, directory: usize) {
        let object = dice.below(self.objects.len());
        match self.objects[object].what {
            What::Directory(parent) if parent == object => {}
            What::Directory(parent) => _ = self.enter(dice, parent, object),
            _ => _ = self.enter(dice, directory, object),
        }
    }

    /// Adds an entry, if its name is free.
    fn enter(&mut self, dice: &mut Dice, directory: usize, object: usize) -> bool {
        let name = match dice.one_in(60) {
            true => vec![b'n'; 255],
            false => word(dice, 2),
        };
        let is_free = !self.entries.iter().any(|(d, n, _)| (*d, n) == (directory, &name));
        if is_free {
            self.entries.push((directory, name, object));
        }
        is_free
    }

    fn directory(&self, dice: &mut Dice) -> usize {
        dice.pick(&self.directories(|_| true))
    }

    pub fn directories(&self, is_so: impl Fn(usize) -> bool) -> Vec<usize> {
        let is_directory = |at: &usize| matches!(self.objects[*at].what, What::Directory(_));
        (0..self.objects.len()).filter(is_directory).filter(|at| is_so(*at)).collect()
    }

    pub fn is_under(&self, mut directory: usize, root: usize) -> bool {
        while directory != root {
            match self.objects[directory].what {
                What::Directory(parent) if parent != directory => directory = parent,
                _ => return false,
            }
        }
        true
    }

    fn mount(&mut self, dice: &mut Dice) {
        let parent = dice.below(self.mounts.len());
        let above = self.mounts[parent].root;
        let points = self.directories(|at| {
            let is_taken = self.mounts.iter().skip(1).any(|m| (m.parent, m.point) == (parent, at));
            at != above && self.is_under(at, above) && !is_taken
        });
        if let Some(point) = dice.choose(&points) {
            let (root, name) = (self.directory(dice), format!("m{}", self.mounts.len()));
            self.mounts.push(Mount { root, parent, point: *point, name });
        }
    }

    /// Leads magic links somewhere.
    fn aim(&mut self, dice: &mut Dice) {
        for at in 0..self.objects.len() {
            let What::Magic(..) = self.objects[at].what else { continue };
            let mount = dice.below(self.mounts.len());
            let is_target = |to: &usize| match self.objects[*to].what {
                What::Directory(_) => self.is_under(*to, self.mounts[mount].root),
                What::File => true,
                _ => false,
            };
            let targets: Vec<usize> = (0..self.objects.len()).filter(is_target).collect();
            self.objects[at].what = What::Magic(mount, dice.pick(&targets));
        }
    }

    /// The path of an object.
    pub fn path(&self, object: usize) -> Vec<u8> {
        match self.objects[object].at {
            At::Tree(0) => b"/".to_vec(),
            At::Tree(tree) => self.labels[tree].clone().into_bytes(),
            At::Entry(entry) => self.entry_path(entry),
        }
    }

    fn entry_path(&self, entry: usize) -> Vec<u8> {
        let (directory, name, _) = &self.entries[entry];
        let above = match self.objects[*directory].at {
            At::Tree(0) => Vec::new(),
            _ => self.path(*directory),
        };
        [&above[..], b"/", name].concat()
    }

    /// The path, or that of a second name.
    fn some_path(&self, dice: &mut Dice, object: usize) -> Vec<u8> {
        let named = (0..self.entries.len()).filter(|entry| self.entries[*entry].2 == object);
        let mut paths: Vec<Vec<u8>> = named.map(|entry| self.entry_path(entry)).collect();
        paths.push(self.path(object));
        dice.pick(&paths)
    }

    /// A manifest with the lines in any order.
    pub fn manifest(&self, dice: &mut Dice) -> Manifest {
        let objects = (0..self.objects.len()).map(|at| (0, at));
        let entries = (0..self.entries.len()).map(|at| (1, at));
        let mounts = (0..self.mounts.len()).map(|at| (2, at));
        let mut lines: Vec<(u8, usize)> = objects.chain(entries).chain(mounts).collect();
        for at in (1..lines.len()).rev() {
            lines.swap(at, dice.below(at + 1));
        }
        let mut manifest = Manifest::new();
        lines.into_iter().for_each(|(part, at)| match part {
            0 => self.describe(dice, &mut manifest, at),
            1 => self.name_again(&mut manifest, at),
            _ => self.hang(dice, &mut manifest, at),
        });
        manifest
    }

    fn describe(&self, dice: &mut Dice, manifest: &mut Manifest, at: usize) {
        let (object, path) = (&self.objects[at], self.path(at));
        match (&object.what, object.at) {
            // It need not be described.
            (_, At::Tree(0)) if dice.percent(50) => manifest,
            (What::Directory(parent), At::Tree(_)) if *parent != at => {
                manifest.nameless(path, self.path(*parent))
            }
            (What::Directory(_), _) => manifest.directory(path),
            (What::File, _) => manifest.file(path),
            (What::Link(body), _) => manifest.link(path, body),
            (What::Magic(0, target), _) => manifest.magic_link(path, self.some_path(dice, *target)),
            (What::Magic(mount, target), _) => {
                let name = &self.mounts[*mount].name;
                manifest.magic_link(path, (self.some_path(dice, *target), name))
            }
        };
    }

    fn name_again(&self, manifest: &mut Manifest, entry: usize) {
        let object = self.entries[entry].2;
        if !matches!(self.objects[object].at, At::Entry(first) if first == entry) {
            manifest.hard_link(self.entry_path(entry), self.path(object));
        }
    }

    fn hang(&self, dice: &mut Dice, manifest: &mut Manifest, at: usize) {
        let Mount { root, parent, point, name } = &self.mounts[at];
        let [root_path, point_path] = [*root, *point].map(|object| self.some_path(dice, object));
        match (at, *parent) {
            (0, _) if *root == 0 && dice.percent(50) => manifest,
            (0, _) => manifest.root(root_path),
            (_, 0) => manifest.mount_as(name, root_path, point_path),
            (_, parent) => {
                manifest.mount_as(name, root_path, (point_path, &self.mounts[parent].name))
            }
        };
    }

    /// The same with other names wherever these do not count. Of trees that no mount shows, and of
    /// what else has no name, the order of the names does.
    pub fn renamed(&self, dice: &mut Dice) -> Self {
        let mut renamed = self.clone();
        let mut order: Vec<usize> = (1..self.labels.len()).collect();
        order.sort_by_key(|tree| (self.labels[*tree].len(), &self.labels[*tree]));
        for (number, tree) in order.into_iter().enumerate() {
            renamed.labels[tree] = match self.is_shown(tree) {
                true => format!("{}{number}:", dice.pick(&["z", "", "A.b-c_", "in"])),
                false => format!("t{}:", number + 100),
            };
        }
        let names = dice.below(1_000)..;
        renamed.mounts.iter_mut().zip(names).for_each(|(mount, number)| {
            mount.name = format!("{}{number}", dice.pick(&["z", "", "as", "-"]));
        });
        renamed
    }

    /// Whether a mount shows this tree.
    fn is_shown(&self, tree: usize) -> bool {
        let mut tops = self.mounts.iter().map(|mount| &self.objects[self.top(mount.root)]);
        tops.any(|top| matches!(top.at, At::Tree(shown) if shown == tree))
    }

    /// The top of the tree that a directory is in.
    pub fn top(&self, mut directory: usize) -> usize {
        while let What::Directory(parent) = self.objects[directory].what {
            if parent == directory {
                break;
            }
            directory = parent;
        }
        directory
    }

    /// What there is: see the test.
    pub fn occurs(&self) -> [bool; 12] {
        let any = |is_so: &dyn Fn(usize, &Object) -> bool| {
            self.objects.iter().enumerate().skip(1).any(|(at, object)| is_so(at, object))
        };
        let kind = |object: &Object| match (&object.what, object.at) {
            (What::Directory(_), _) => 0,
            (What::File, At::Tree(_)) => 1,
            (What::Link(_), At::Tree(_)) => 2,
            (What::Magic(..), At::Tree(_)) => 3,
            (What::Magic(1.., _), _) => 4,
            _ => 5,
        };
        let is_second = |(at, (_, _, object)): (usize, &(usize, Vec<u8>, usize))| !matches!(self.objects[*object].at, At::Entry(first) if first == at);
        let tree = |at: At| matches!(at, At::Tree(_));
        [
            any(&|_, object| kind(object) == 1),
            any(&|_, object| kind(object) == 2),
            any(&|_, object| kind(object) == 3),
            any(&|_, object| kind(object) == 4),
            any(&|at, object| {
                tree(object.at) && matches!(object.what, What::Directory(p) if p == at)
            }),
            any(&|at, object| {
                tree(object.at) && matches!(object.what, What::Directory(p) if p != at)
            }),
            self.entries.iter().enumerate().any(is_second),
            self.mounts.iter().skip(1).any(|mount| mount.parent > 0),
            self.mounts.iter().skip(1).any(|mount| self.top(mount.root) == 0),
            self.mounts.iter().skip(1).any(|mount| self.top(mount.root) != 0),
            self.mounts[0].root != 0,
            self.top(self.mounts[0].root) != 0,
        ]
    }
}

/// A file or link.
fn other(dice: &mut Dice) -> What {
    match dice.below(4) {
        0 => What::File,
        1 => What::Magic(0, 0),
        _ => What::Link(word(dice, 6)),
    }
}
