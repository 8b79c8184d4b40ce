//! The table check and the resolver, written straight over the image bytes:
//! the plain Rust that the proved code is measured against.
//!
//! Nothing is allocated and nothing is unsafe. The rules are those of
//! docs/RULES.md; table rule k is RULES 4.k.

use std::ops::RangeInclusive;

pub const SIGNATURE: &[u8] = b"TOC1";
pub const HEADER_LEN: usize = 20;
pub const IMAGE_LEN: RangeInclusive<usize> = HEADER_LEN..=65_536;
const MAX_NODES: usize = 4_096;
const MAX_MOUNTS: usize = 256;
const MAX_ENTRIES: usize = 4_096;
const MAX_BODY: u32 = 4_095;
const MAX_NAME: usize = 255;
const MAX_PATH: usize = 4_095;
const MAX_LINKS: usize = 40;

// Node kinds.
const DIRECTORY: u16 = 1;
const FILE: u16 = 2;
pub const SYMLINK: u16 = 3;
const MAGIC_LINK: u16 = 4;

// open_how: length, flags and resolve bits.
const HOW_LEN: usize = 24;
const MAX_HOW: usize = 4_096;
pub const O_DIRECTORY: u64 = 0x1_0000;
pub const O_NOFOLLOW: u64 = 0x2_0000;
pub const O_CLOEXEC: u64 = 0x8_0000;
pub const O_PATH: u64 = 0x20_0000;
pub const NO_XDEV: u64 = 1;
pub const NO_MAGICLINKS: u64 = 2;
pub const NO_SYMLINKS: u64 = 4;
pub const BENEATH: u64 = 8;
pub const IN_ROOT: u64 = 16;
const KNOWN_FLAGS: u64 = O_DIRECTORY | O_NOFOLLOW | O_CLOEXEC | O_PATH;
const KNOWN_RESOLVE: u64 = NO_XDEV | NO_MAGICLINKS | NO_SYMLINKS | BENEATH | IN_ROOT;

/// The detail of every refusal but that of an unknown bit.
const NO_DETAIL: u8 = 255;

/// Why a table is not accepted: the lowest rule broken, and the lowest record
/// that breaks it.
#[derive(Clone, Copy, Debug, PartialEq, Eq)]
pub struct Broken {
    pub rule: u8,
    pub record: u32,
}

impl Broken {
    pub fn new(rule: u8, record: usize) -> Self {
        Broken { rule, record: record as u32 }
    }
}

/// A node as seen in a mount.
#[derive(Clone, Copy, Debug, PartialEq, Eq)]
pub struct Place {
    pub mount: u16,
    pub node: u16,
}

/// A handle as the caller gives it: its numbers may be out of range.
#[derive(Clone, Copy, Debug)]
pub struct Handle {
    pub mount: u64,
    pub node: u64,
    pub mark: bool,
}

#[derive(Clone, Copy, Debug, PartialEq, Eq)]
pub struct Found {
    pub place: Place,
    pub components: u32,
    pub links: u32,
}

#[derive(Clone, Copy, Debug, PartialEq, Eq)]
pub struct Refusal {
    pub errno: Errno,
    pub detail: u8,
    pub components: u32,
    pub links: u32,
}

impl Refusal {
    pub fn before_walk(errno: Errno) -> Self {
        Refusal { errno, detail: NO_DETAIL, components: 0, links: 0 }
    }
}

#[allow(clippy::upper_case_acronyms)] // the names errno(3) gives them
#[derive(Clone, Copy, Debug, PartialEq, Eq)]
#[repr(u8)]
pub enum Errno {
    ENOENT = 2,
    E2BIG = 7,
    EBADF = 9,
    EXDEV = 18,
    ENOTDIR = 20,
    EINVAL = 22,
    EMFILE = 24,
    ENOTTY = 25,
    ERANGE = 34,
    ENAMETOOLONG = 36,
    ELOOP = 40,
    EUCLEAN = 117,
}

/// The table check.
pub fn check(image: &[u8]) -> Result<(), Broken> {
    check_header(image).map_err(|rule| Broken::new(rule, 0))?;
    Table::open(image).check_records()
}

/// The root of mount 0, in a table that [`check`] has accepted.
pub fn root(image: &[u8]) -> u16 {
    Table::open(image).mount(0).root
}

/// Whether a node is a directory, in a table that [`check`] has accepted.
pub fn is_directory(image: &[u8], node: u64) -> bool {
    u16::try_from(node).is_ok_and(|node| Table::open(image).is_directory(node))
}

/// The flags of an open_how that is not too short, whatever is wrong with it.
pub fn flags(how: &[u8]) -> Option<u64> {
    (how.len() >= HOW_LEN).then(|| u64_at(how, 0))
}

/// Rules 1 to 3; the error is the rule broken.
fn check_header(image: &[u8]) -> Result<(), u8> {
    if !IMAGE_LEN.contains(&image.len()) {
        return Err(1);
    }
    if !image.starts_with(SIGNATURE) || u16_at(image, 10) != 0 {
        return Err(2);
    }
    let [nodes, mounts, entries] = counts(image);
    let text = u32_at(image, 12);
    let bodies = (HEADER_LEN + 12 * nodes + 8 * mounts + 8 * entries) as u64;
    if !are_counts_allowed(nodes, mounts, entries)
        || bodies + u64::from(text) != image.len() as u64
        || u32_at(image, 16) as usize != image.len()
    {
        return Err(3);
    }
    Ok(())
}

/// Rule 3's limits of the counts.
pub fn are_counts_allowed(nodes: usize, mounts: usize, entries: usize) -> bool {
    (1..=MAX_NODES).contains(&nodes) && (1..=MAX_MOUNTS).contains(&mounts) && entries <= MAX_ENTRIES
}

fn u16_at(bytes: &[u8], at: usize) -> u16 {
    u16::from_le_bytes([bytes[at], bytes[at + 1]])
}

fn u32_at(bytes: &[u8], at: usize) -> u32 {
    u32::from_le_bytes([bytes[at], bytes[at + 1], bytes[at + 2], bytes[at + 3]])
}

fn u64_at(bytes: &[u8], at: usize) -> u64 {
    u64::from(u32_at(bytes, at)) | u64::from(u32_at(bytes, at + 4)) << 32
}

/// The header's counts of nodes, mounts and entries.
fn counts(image: &[u8]) -> [usize; 3] {
    [4, 6, 8].map(|at| usize::from(u16_at(image, at)))
}

#[derive(Clone, Copy)]
pub struct Node {
    pub kind: u16,
    parent: u16,
    first: u32,
    pub count: u32,
}

impl Node {
    pub fn read(record: &[u8; 12]) -> Self {
        Node {
            kind: u16_at(record, 0),
            parent: u16_at(record, 2),
            first: u32_at(record, 4),
            count: u32_at(record, 8),
        }
    }

    fn is_directory(self) -> bool {
        self.kind == DIRECTORY
    }
}

#[derive(Clone, Copy)]
struct Mount {
    root: u16,
    parent: u16,
    point: u16,
    zero: u16,
}

impl Mount {
    fn read(record: &[u8; 8]) -> Self {
        Mount {
            root: u16_at(record, 0),
            parent: u16_at(record, 2),
            point: u16_at(record, 4),
            zero: u16_at(record, 6),
        }
    }
}

#[derive(Clone, Copy)]
pub struct Entry {
    name_at: u32,
    pub name_len: u16,
    node: u16,
}

impl Entry {
    pub fn read(record: &[u8; 8]) -> Self {
        Entry { name_at: u32_at(record, 0), name_len: u16_at(record, 4), node: u16_at(record, 6) }
    }
}

/// The parts of an image that keeps rules 1 to 3, or those that an image is built from.
#[derive(Clone, Copy)]
pub struct Table<'a> {
    pub nodes: &'a [[u8; 12]],
    pub mounts: &'a [[u8; 8]],
    pub entries: &'a [[u8; 8]],
    pub text: &'a [u8],
}

impl<'a> Table<'a> {
    fn open(image: &'a [u8]) -> Self {
        let [nodes, mounts, entries] = counts(image);
        let (nodes, rest) = image[HEADER_LEN..].split_at(12 * nodes);
        let (mounts, rest) = rest.split_at(8 * mounts);
        let (entries, text) = rest.split_at(8 * entries);
        Table {
            nodes: nodes.as_chunks().0,
            mounts: mounts.as_chunks().0,
            entries: entries.as_chunks().0,
            text,
        }
    }

    /// Rules 4 to 7, where the counts keep rule 3.
    #[inline(never)] // the check of an image and the builder have it in common
    pub fn check_records(&self) -> Result<(), Broken> {
        self.check_nodes()?;
        self.check_entries()?;
        self.check_mounts()?;
        self.check_magic_links()
    }

    fn node(&self, number: u16) -> Node {
        Node::read(&self.nodes[usize::from(number)])
    }

    fn mount(&self, number: u16) -> Mount {
        Mount::read(&self.mounts[usize::from(number)])
    }

    /// All nodes with their numbers.
    fn numbered_nodes(&self) -> impl Iterator<Item = (usize, Node)> + 'a {
        self.nodes.iter().map(Node::read).enumerate()
    }

    /// The records of a directory's entries.
    fn entries_of(&self, directory: Node) -> &'a [[u8; 8]] {
        &self.entries[directory.first as usize..][..directory.count as usize]
    }

    /// `len` bytes of text from `at`, if they are inside it.
    fn text(&self, at: u32, len: u32) -> Option<&'a [u8]> {
        self.text.get(at as usize..)?.get(..len as usize)
    }

    fn is_directory(&self, number: u16) -> bool {
        self.nodes.get(usize::from(number)).is_some_and(|record| Node::read(record).is_directory())
    }

    /// Whether following parents from the directory `node` meets `root`.
    fn is_under(&self, mut node: u16, root: u16) -> bool {
        // A parent is numbered below its child, so from below root the climb
        // cannot meet it any more.
        while node > root {
            let parent = self.node(node).parent;
            if parent == node {
                return false;
            }
            node = parent;
        }
        node == root
    }

    /// Rule 4.
    fn check_nodes(&self) -> Result<(), Broken> {
        let mut entries_so_far = 0_u64;
        for (number, node) in self.numbered_nodes() {
            let holds = match node.kind {
                DIRECTORY => {
                    let first = entries_so_far;
                    entries_so_far += u64::from(node.count);
                    usize::from(node.parent) <= number
                        && self.node(node.parent).is_directory()
                        && u64::from(node.first) == first
                }
                FILE => node.parent == 0 && node.first == 0 && node.count == 0,
                SYMLINK => {
                    node.parent == 0
                        && (1..=MAX_BODY).contains(&node.count)
                        && self.text(node.first, node.count).is_some_and(|body| !body.contains(&0))
                }
                MAGIC_LINK => node.parent == 0,
                _ => false,
            };
            if !holds {
                return Err(Broken::new(4, number));
            }
        }
        if entries_so_far != self.entries.len() as u64 {
            return Err(Broken::new(4, self.nodes.len()));
        }
        Ok(())
    }

    /// Rule 5. By rule 4 the directories, in order, own all entries, in order.
    #[inline(never)] // inlined, it takes 5 % more
    fn check_entries(&self) -> Result<(), Broken> {
        for (number, directory) in self.numbered_nodes() {
            if !directory.is_directory() {
                continue;
            }
            // Every name comes after the empty one, so an empty name never does.
            let mut previous: &[u8] = b"";
            for (i, record) in self.entries_of(directory).iter().enumerate() {
                match self.check_entry(Entry::read(record), number, previous) {
                    Some(name) => previous = name,
                    None => return Err(Broken::new(5, directory.first as usize + i)),
                }
            }
        }
        Ok(())
    }

    /// The name of a directory's entry, if the entry keeps rule 5.
    fn check_entry(&self, entry: Entry, directory: usize, previous: &[u8]) -> Option<&'a [u8]> {
        let name = self.text(entry.name_at, u32::from(entry.name_len))?;
        let node = Node::read(self.nodes.get(usize::from(entry.node))?);
        let holds = name.len() <= MAX_NAME
            && !name.contains(&0)
            && !name.contains(&b'/')
            && name != b"."
            && name != b".."
            && name > previous
            && (!node.is_directory()
                || usize::from(node.parent) == directory && usize::from(entry.node) > directory);
        holds.then_some(name)
    }

    /// Rule 6.
    fn check_mounts(&self) -> Result<(), Broken> {
        // Parent and point of each mount so far, as one number.
        let mut covered = [0_u32; MAX_MOUNTS];
        for (number, record) in self.mounts.iter().enumerate() {
            let Mount { root, parent, point, zero } = Mount::read(record);
            let mut holds = self.is_directory(root) && zero == 0;
            if number == 0 {
                holds = holds && parent == 0 && point == root;
            } else {
                covered[number] = u32::from(parent) << 16 | u32::from(point);
                holds = holds && usize::from(parent) < number && {
                    let parent_root = self.mount(parent).root;
                    point != parent_root
                        && self.is_directory(point)
                        && self.is_under(point, parent_root)
                        && !covered[1..number].contains(&covered[number])
                };
            }
            if !holds {
                return Err(Broken::new(6, number));
            }
        }
        Ok(())
    }

    /// Rule 7.
    fn check_magic_links(&self) -> Result<(), Broken> {
        let mut broken = None;
        let mut any_to_directory = false;
        for (number, link) in self.numbered_nodes().filter(|(_, node)| node.kind == MAGIC_LINK) {
            let target = self.nodes.get(link.count as usize).map(Node::read);
            match target.map(|node| node.kind) {
                Some(DIRECTORY) if (link.first as usize) < self.mounts.len() => {
                    any_to_directory = true;
                }
                Some(FILE) if (link.first as usize) < self.mounts.len() => {}
                _ => {
                    broken = Some(number);
                    break;
                }
            }
        }
        // The links after a broken one do not matter any more.
        if any_to_directory {
            let end = broken.unwrap_or(self.nodes.len());
            broken = self.lowest_astray(end).or(broken);
        }
        match broken {
            Some(number) => Err(Broken::new(7, number)),
            None => Ok(()),
        }
    }

    /// The lowest magic link below `end` whose target is a directory that is
    /// not under the root of the link's mount.
    ///
    /// The links are gathered by mount, and one pass for each such mount marks
    /// what is under its root, so that no table costs more than its mounts
    /// times its nodes.
    fn lowest_astray(&self, end: usize) -> Option<usize> {
        // For each mount its latest link, for each link the one before it.
        const NONE: u16 = u16::MAX;
        let mut latest = [NONE; MAX_MOUNTS];
        let mut before = [NONE; MAX_NODES];
        for (number, link) in self.numbered_nodes().take(end) {
            if link.kind == MAGIC_LINK && self.is_directory(link.count as u16) {
                let latest = &mut latest[link.first as usize];
                before[number] = *latest;
                *latest = number as u16;
            }
        }

        let mut lowest = None;
        let mut under = [false; MAX_NODES];
        let under = &mut under[..self.nodes.len()];
        for (mount, &latest) in self.mounts.iter().map(Mount::read).zip(&latest) {
            if latest == NONE {
                continue;
            }
            // Parents are numbered below their children. A top, its own parent,
            // is marked only while it is the root. What is said of nodes that
            // are no directories is never asked.
            let root = usize::from(mount.root);
            under[..root].fill(false);
            under[root] = true;
            for number in root + 1..self.nodes.len() {
                let node = Node::read(&self.nodes[number]);
                under[number] = under[usize::from(node.parent)];
            }
            let mut number = latest;
            while number != NONE {
                if !under[self.node(number).count as usize] {
                    lowest = Some(lowest.map_or(number, |lowest: u16| lowest.min(number)));
                }
                number = before[usize::from(number)];
            }
            under[root] = false;
        }
        lowest.map(usize::from)
    }

    /// The bytes of an entry's name, in a table that [`check`] has accepted.
    pub fn name(&self, record: &[u8; 8]) -> &'a [u8] {
        let entry = Entry::read(record);
        &self.text[entry.name_at as usize..][..usize::from(entry.name_len)]
    }

    /// The body of a symbolic link, in a table that [`check`] has accepted.
    pub fn body(&self, link: Node) -> &'a [u8] {
        &self.text[link.first as usize..][..link.count as usize]
    }

    /// The entry of this name in a directory, whose names are sorted. A function for the
    /// walk and one for lookups, so that each is inlined where it is called: the walk
    /// would otherwise pay for a call at each component.
    fn lookup<const IN_WALK: bool>(&self, directory: u16, name: &[u8]) -> Option<(usize, Entry)> {
        let directory = self.node(directory);
        let entries = self.entries_of(directory);
        let at = entries.binary_search_by(|record| self.name(record).cmp(name)).ok()?;
        Some((directory.first as usize + at, Entry::read(&entries[at])))
    }

    /// The place seen where a mount covers `place`.
    fn covering(&self, place: Place) -> Option<Place> {
        // A mount is numbered above its parent, so mount 0 is never tried.
        // Parent and point lie side by side: one comparison does for both.
        let [p0, p1] = place.mount.to_le_bytes();
        let [n0, n1] = place.node.to_le_bytes();
        let first = place.mount + 1;
        let mount = self.mounts[usize::from(first)..]
            .iter()
            .position(|record| record[2..6] == [p0, p1, n0, n1])?;
        let mount = first + mount as u16;
        Some(Place { mount, node: self.mount(mount).root })
    }

    fn check_handle(&self, handle: Handle) -> Result<Place, Errno> {
        if handle.mount >= self.mounts.len() as u64 || handle.node >= self.nodes.len() as u64 {
            return Err(Errno::EBADF);
        }
        let place = Place { mount: handle.mount as u16, node: handle.node as u16 };
        if !self.node(place.node).is_directory() {
            return Err(Errno::ENOTDIR);
        }
        let root = self.mount(place.mount).root;
        if !self.is_under(place.node, root) || self.covering(place).is_some() {
            return Err(Errno::EBADF);
        }
        Ok(place)
    }

    /// The handle's place, checked unless the call has no use for it. The top stands for it
    /// then: an Escape there is forbidden by nothing, since BENEATH has refused Start.
    fn handle_of(&self, handle: Handle, path: &[u8], how: How) -> Result<Place, Errno> {
        if path.starts_with(b"/") && how.resolve & IN_ROOT == 0 && !handle.mark {
            return Ok(self.top());
        }
        self.check_handle(handle)
    }

    /// Mount 0's root.
    fn top(&self) -> Place {
        Place { mount: 0, node: self.mount(0).root }
    }
}

/// Looks a name up in the directory of a node's number, the table checked first: its
/// entry and the node that this names.
pub fn lookup(image: &[u8], node: u64, name: &[u8]) -> Result<(usize, u16), Errno> {
    check(image).map_err(|_| Errno::EUCLEAN)?;
    lookup_checked(image, node, name)
}

/// As [`lookup`], for a table that [`check`] has accepted; any other may panic.
pub fn lookup_checked(image: &[u8], node: u64, name: &[u8]) -> Result<(usize, u16), Errno> {
    let table = Table::open(image);
    if node >= table.nodes.len() as u64 {
        return Err(Errno::EBADF);
    }
    let node = node as u16;
    if !table.node(node).is_directory() {
        return Err(Errno::ENOTDIR);
    }
    let (number, entry) = table.lookup::<false>(node, name).ok_or(Errno::ENOENT)?;
    Ok((number, entry.node))
}

/// Resolves a path to a place, the table checked first.
pub fn resolve(image: &[u8], handle: Handle, path: &[u8], how: &[u8]) -> Result<Found, Refusal> {
    check(image).map_err(|_| Refusal::before_walk(Errno::EUCLEAN))?;
    resolve_checked(image, handle, path, how)
}

/// As [`resolve`], for a table that [`check`] has accepted; any other may panic.
pub fn resolve_checked(
    image: &[u8],
    handle: Handle,
    path: &[u8],
    how: &[u8],
) -> Result<Found, Refusal> {
    let how = How::read(how)?;
    check_path(path).map_err(Refusal::before_walk)?;
    let table = Table::open(image);
    let place = table.handle_of(handle, path, how).map_err(Refusal::before_walk)?;
    let top = table.top();

    let mut walk = Walk {
        table,
        handle: place,
        top,
        root: if how.resolve & IN_ROOT != 0 { place } else { top },
        mark: handle.mark,
        how,
        place,
        components: 0,
        links: 0,
    };
    let end = walk.run(path);
    let Walk { place, components, links, .. } = walk;
    match end {
        Ok(()) => Ok(Found { place, components, links }),
        Err(errno) => Err(Refusal { errno, detail: NO_DETAIL, components, links }),
    }
}

#[derive(Clone, Copy)]
struct How {
    flags: u64,
    resolve: u64,
}

impl How {
    fn read(how: &[u8]) -> Result<Self, Refusal> {
        if how.len() < HOW_LEN {
            return Err(Refusal::before_walk(Errno::EINVAL));
        }
        if how.len() > MAX_HOW || how[HOW_LEN..].iter().any(|&byte| byte != 0) {
            return Err(Refusal::before_walk(Errno::E2BIG));
        }
        let flags = u64_at(how, 0);
        let mode_and_padding = u64_at(how, 8);
        let resolve = u64_at(how, 16);

        let unknown_bit = |unknown: u64, base: u32| Refusal {
            detail: (base + unknown.trailing_zeros()) as u8,
            ..Refusal::before_walk(Errno::EINVAL)
        };
        if flags & !KNOWN_FLAGS != 0 {
            return Err(unknown_bit(flags & !KNOWN_FLAGS, 0));
        }
        if resolve & !KNOWN_RESOLVE != 0 {
            return Err(unknown_bit(resolve & !KNOWN_RESOLVE, 64));
        }
        if resolve & (BENEATH | IN_ROOT) == BENEATH | IN_ROOT || mode_and_padding != 0 {
            return Err(Refusal::before_walk(Errno::EINVAL));
        }
        Ok(How { flags, resolve })
    }
}

fn check_path(path: &[u8]) -> Result<(), Errno> {
    if path.len() > MAX_PATH {
        Err(Errno::ENAMETOOLONG)
    } else if path.is_empty() {
        Err(Errno::ENOENT)
    } else if path.contains(&0) {
        Err(Errno::EINVAL)
    } else {
        Ok(())
    }
}

/// What a restriction may forbid.
enum Event {
    Start,
    Escape,
    Cross,
    Link,
    Magic { target_mount: u16 },
    Jump,
}

struct Walk<'a> {
    table: Table<'a>,
    handle: Place,
    /// Mount 0's root, which has nothing above it.
    top: Place,
    /// Where an absolute text begins: the handle or the top.
    root: Place,
    mark: bool,
    how: How,
    place: Place,
    components: u32,
    links: u32,
}

/// What is left to read of the texts below the one being read. None is kept
/// without a component left, so a component that ends its own text is the last
/// one exactly if nothing is open.
struct OpenTexts<'a> {
    stack: [Option<&'a [u8]>; MAX_LINKS],
    depth: usize,
}

impl<'a> OpenTexts<'a> {
    fn new() -> Self {
        OpenTexts { stack: [None; MAX_LINKS], depth: 0 }
    }

    fn is_empty(&self) -> bool {
        self.depth == 0
    }

    fn push(&mut self, rest: &'a [u8]) {
        self.stack[self.depth] = Some(rest);
        self.depth += 1;
    }

    fn pop(&mut self) -> Option<&'a [u8]> {
        self.depth = self.depth.checked_sub(1)?;
        self.stack[self.depth]
    }
}

impl Walk<'_> {
    /// Walks the path to its end. The place and the counts are left as they
    /// stand there, or at the refusal.
    #[inline(never)] // the checks before it would cost its loops registers
    fn run(&mut self, path: &[u8]) -> Result<(), Errno> {
        let ends_in_slash = path.ends_with(b"/");
        let follow_last = self.how.flags & O_NOFOLLOW == 0 || ends_in_slash;
        let mut need_directory = self.how.flags & O_DIRECTORY != 0 || ends_in_slash;

        if path.starts_with(b"/") {
            self.meet(Event::Start)?;
            self.place = self.root;
        }

        let table = self.table;
        let mut rest = skip_slashes(path);
        let mut open = OpenTexts::new();
        loop {
            if rest.is_empty() {
                match open.pop() {
                    Some(text) => rest = text,
                    None => break,
                }
            }
            let component;
            (component, rest) = split_component(rest);
            let last = rest.is_empty() && open.is_empty();
            self.components += 1;

            // The walk stands on a directory here.
            match component {
                b"." => continue,
                b".." => {
                    self.climb()?;
                    continue;
                }
                _ => {}
            }
            if component.len() > MAX_NAME {
                return Err(Errno::ENAMETOOLONG);
            }
            let (_, entry) =
                table.lookup::<true>(self.place.node, component).ok_or(Errno::ENOENT)?;
            let number = entry.node;
            let node = table.node(number);
            match node.kind {
                DIRECTORY => {
                    self.place.node = number;
                    self.enter()?;
                }
                SYMLINK | MAGIC_LINK if !last || follow_last => {
                    if self.links == MAX_LINKS as u32 {
                        return Err(Errno::ELOOP);
                    }
                    self.meet(Event::Link)?;
                    if node.kind == MAGIC_LINK {
                        self.jump_to(Place { mount: node.first as u16, node: node.count as u16 })?;
                        if !last && !table.node(self.place.node).is_directory() {
                            return Err(Errno::ENOTDIR);
                        }
                        continue;
                    }
                    let body = table.body(node);
                    if body.starts_with(b"/") {
                        self.meet(Event::Jump)?;
                        self.place = self.root;
                    }
                    self.links += 1;
                    need_directory |= last && body.ends_with(b"/");
                    if !rest.is_empty() {
                        open.push(rest);
                    }
                    rest = skip_slashes(body);
                }
                _ if !last => return Err(Errno::ENOTDIR),
                _ => self.place.node = number,
            }
        }

        match table.node(self.place.node).kind {
            DIRECTORY => Ok(()),
            _ if need_directory => Err(Errno::ENOTDIR),
            SYMLINK | MAGIC_LINK if self.how.flags & O_PATH == 0 => Err(Errno::ELOOP),
            _ => Ok(()),
        }
    }

    /// "..".
    fn climb(&mut self) -> Result<(), Errno> {
        if self.place == self.handle {
            self.meet(Event::Escape)?;
        }
        if self.place == self.root || self.place == self.top {
            return Ok(());
        }
        let mount = self.table.mount(self.place.mount);
        if self.place.node == mount.root {
            self.meet(Event::Cross)?;
            self.place = Place { mount: mount.parent, node: mount.point };
        }
        self.place.node = self.table.node(self.place.node).parent;
        self.enter()
    }

    /// Enters the mount that covers the place, if one does. That mount's root
    /// is never covered itself.
    fn enter(&mut self) -> Result<(), Errno> {
        if let Some(root) = self.table.covering(self.place) {
            self.meet(Event::Cross)?;
            self.place = root;
        }
        Ok(())
    }

    /// Follows a magic link.
    fn jump_to(&mut self, target: Place) -> Result<(), Errno> {
        self.meet(Event::Magic { target_mount: target.mount })?;
        if self.how.resolve & IN_ROOT != 0 {
            return Err(Errno::EXDEV);
        }
        self.place = target;
        self.links += 1;
        Ok(())
    }

    /// Tries an event's row of the table of forbidden events, left to right.
    fn meet(&self, event: Event) -> Result<(), Errno> {
        let set = |bit: u64| self.how.resolve & bit != 0;
        match event {
            Event::Start | Event::Escape if self.mark => Err(Errno::ENOENT),
            Event::Start | Event::Escape if set(BENEATH) => Err(Errno::EXDEV),
            Event::Cross if set(NO_XDEV) => Err(Errno::EXDEV),
            Event::Link if set(NO_SYMLINKS) => Err(Errno::ELOOP),
            Event::Magic { .. } if self.mark => Err(Errno::ENOENT),
            Event::Magic { .. } if set(NO_MAGICLINKS) => Err(Errno::ELOOP),
            Event::Magic { target_mount } if set(NO_XDEV) && target_mount != self.place.mount => {
                Err(Errno::EXDEV)
            }
            Event::Magic { .. } if set(BENEATH) => Err(Errno::EXDEV),
            Event::Jump if self.mark => Err(Errno::ENOENT),
            Event::Jump if set(BENEATH) => Err(Errno::EXDEV),
            Event::Jump if set(NO_XDEV) && self.place.mount != self.root.mount => Err(Errno::EXDEV),
            _ => Ok(()),
        }
    }
}

/// The first component of a text that starts with one, and what comes after
/// the slashes that follow it.
fn split_component(text: &[u8]) -> (&[u8], &[u8]) {
    let end = text.iter().position(|&byte| byte == b'/');
    let (component, after) = text.split_at(end.unwrap_or(text.len()));
    (component, skip_slashes(after))
}

fn skip_slashes(mut text: &[u8]) -> &[u8] {
    while let [b'/', rest @ ..] = text {
        text = rest;
    }
    text
}
