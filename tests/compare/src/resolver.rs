//! The table check and the walk, written from the rules alone and in their
//! order, to be compared with the library. docs/RULES.md has the rules.
//!
//! Nothing here is meant to be quick or small: records are parsed into
//! vectors first, and the texts still to be read are one queue of
//! components. Every function is total over any bytes.

use std::collections::VecDeque;

pub const ENOENT: u64 = 2;
pub const E2BIG: u64 = 7;
pub const EBADF: u64 = 9;
pub const EXDEV: u64 = 18;
pub const ENOTDIR: u64 = 20;
pub const EINVAL: u64 = 22;
pub const ENAMETOOLONG: u64 = 36;
pub const ELOOP: u64 = 40;
pub const EUCLEAN: u64 = 117;

/// The detail of an answer that names no unknown bit.
pub const NO_DETAIL: u64 = 255;

pub const O_DIRECTORY: u64 = 0x10000;
pub const O_NOFOLLOW: u64 = 0x20000;
pub const O_CLOEXEC: u64 = 0x80000;
pub const O_PATH: u64 = 0x200000;
pub const KNOWN_FLAGS: u64 = O_DIRECTORY | O_NOFOLLOW | O_CLOEXEC | O_PATH;

pub const NO_XDEV: u64 = 1;
pub const NO_MAGICLINKS: u64 = 2;
pub const NO_SYMLINKS: u64 = 4;
pub const BENEATH: u64 = 8;
pub const IN_ROOT: u64 = 16;
pub const KNOWN_RESOLVE: u64 = NO_XDEV | NO_MAGICLINKS | NO_SYMLINKS | BENEATH | IN_ROOT;

pub const DIRECTORY: u64 = 1;
pub const FILE: u64 = 2;
pub const LINK: u64 = 3;
pub const MAGIC: u64 = 4;

const MOST_LINKS: u64 = 40;
const LONGEST_NAME: usize = 255;
const LONGEST_PATH: usize = 4095;

// ---------------------------------------------------------------- the table

#[derive(Clone, Debug)]
pub struct Node {
    pub kind: u64,
    pub parent: u64,
    pub first: u64,
    pub count: u64,
}

#[derive(Clone, Debug)]
pub struct Mount {
    pub root: u64,
    pub parent: u64,
    pub point: u64,
    pub zero: u64,
}

#[derive(Clone, Debug)]
pub struct Entry {
    pub offset: u64,
    pub length: u64,
    pub node: u64,
}

/// The parsed records. In one that `accept` hands out all rules hold; the builder has its own
/// of the caller's parts.
#[derive(Clone, Debug)]
pub struct Table<'a> {
    pub nodes: Vec<Node>,
    pub mounts: Vec<Mount>,
    pub entries: Vec<Entry>,
    pub text: &'a [u8],
}

/// The lowest rule broken, with the lowest record breaking it.
#[derive(Clone, Copy, Debug, PartialEq, Eq)]
pub struct Broken {
    pub rule: u64,
    pub record: u64,
}

pub fn broken<T>(rule: u64, record: u64) -> Result<T, Broken> {
    Err(Broken { rule, record })
}

/// The value of a little-endian field of at most eight bytes.
fn value(field: &[u8]) -> u64 {
    field.iter().rev().fold(0, |sum, byte| (sum << 8) | u64::from(*byte))
}

/// Records with their numbers.
fn numbered<T>(records: &[T]) -> impl Iterator<Item = (u64, &T)> {
    (0u64..).zip(records)
}

fn at<T>(records: &[T], number: u64) -> Option<&T> {
    records.get(usize::try_from(number).ok()?)
}

/// `[0, 0]` for an accepted image, else the rule and the record.
pub fn check(image: &[u8]) -> [u64; 2] {
    match accept(image) {
        Ok(_) => [0, 0],
        Err(broken) => [broken.rule, broken.record],
    }
}

/// The table check: the rules in their order, so that the first found broken
/// is the lowest; within a rule the records in theirs.
pub fn accept(image: &[u8]) -> Result<Table<'_>, Broken> {
    let table = read(image)?;
    table.rules_4_to_7()?;
    Ok(table)
}

/// Rules 1 to 3, and the records that they make readable.
fn read(image: &[u8]) -> Result<Table<'_>, Broken> {
    if image.len() < 20 || image.len() > 65_536 {
        return broken(1, 0);
    }
    let (header, bodies) = image.split_at(20);
    if header[0..4] != [0x54, 0x4F, 0x43, 0x31] || value(&header[10..12]) != 0 {
        return broken(2, 0);
    }
    let nodes = value(&header[4..6]);
    let mounts = value(&header[6..8]);
    let entries = value(&header[8..10]);
    let text = value(&header[12..16]);
    let total = value(&header[16..20]);
    let sum = 20 + 12 * nodes + 8 * mounts + 8 * entries + text;
    if !counts_are_right(nodes, mounts, entries) || total != sum || sum != image.len() as u64 {
        return broken(3, 0);
    }
    // Rule 3 holds, so the bodies have exactly these lengths.
    let (node_bytes, bodies) = bodies.split_at(12 * nodes as usize);
    let (mount_bytes, bodies) = bodies.split_at(8 * mounts as usize);
    let (entry_bytes, text) = bodies.split_at(8 * entries as usize);
    Ok(Table::of(node_bytes, mount_bytes, entry_bytes, text))
}

/// Rule 3, as far as it is about how many records there are.
pub fn counts_are_right(nodes: u64, mounts: u64, entries: u64) -> bool {
    (1..=4096).contains(&nodes) && (1..=256).contains(&mounts) && entries <= 4096
}

impl<'a> Table<'a> {
    /// The whole records in these bytes, and the text that they reach into.
    pub fn of(nodes: &[u8], mounts: &[u8], entries: &[u8], text: &'a [u8]) -> Table<'a> {
        let node = |record: &[u8]| Node {
            kind: value(&record[0..2]),
            parent: value(&record[2..4]),
            first: value(&record[4..8]),
            count: value(&record[8..12]),
        };
        let mount = |record: &[u8]| Mount {
            root: value(&record[0..2]),
            parent: value(&record[2..4]),
            point: value(&record[4..6]),
            zero: value(&record[6..8]),
        };
        let entry = |record: &[u8]| Entry {
            offset: value(&record[0..4]),
            length: value(&record[4..6]),
            node: value(&record[6..8]),
        };
        Table {
            nodes: nodes.chunks_exact(12).map(node).collect(),
            mounts: mounts.chunks_exact(8).map(mount).collect(),
            entries: entries.chunks_exact(8).map(entry).collect(),
            text,
        }
    }

    pub fn node(&self, number: u64) -> Option<&Node> {
        at(&self.nodes, number)
    }

    pub fn mount(&self, number: u64) -> Option<&Mount> {
        at(&self.mounts, number)
    }

    pub fn is_directory(&self, number: u64) -> bool {
        self.node(number).is_some_and(|node| node.kind == DIRECTORY)
    }

    /// A part of the text, if it lies inside.
    pub fn text_part(&self, offset: u64, length: u64) -> Option<&'a [u8]> {
        let start = usize::try_from(offset).ok()?;
        let end = usize::try_from(offset.checked_add(length)?).ok()?;
        self.text.get(start..end)
    }

    pub fn name(&self, entry: &Entry) -> Option<&'a [u8]> {
        self.text_part(entry.offset, entry.length)
    }

    /// The entries of a directory node, in their order.
    pub fn entries_of(&self, directory: &Node) -> &[Entry] {
        let part = || {
            let start = usize::try_from(directory.first).ok()?;
            let end = usize::try_from(directory.first.checked_add(directory.count)?).ok()?;
            self.entries.get(start..end)
        };
        part().unwrap_or(&[])
    }

    /// Whether following parents from `node`, itself included, meets `root`.
    pub fn is_under(&self, node: u64, root: u64) -> bool {
        let mut here = node;
        loop {
            if here == root {
                return true;
            }
            match self.node(here) {
                // Rule 4: parents only fall, until the top is its own.
                Some(record) if record.parent < here => here = record.parent,
                _ => return false,
            }
        }
    }

    pub fn rules_4_to_7(&self) -> Result<(), Broken> {
        self.rule_4()?;
        self.rule_5()?;
        self.rule_6()?;
        self.rule_7()
    }

    fn rule_4(&self) -> Result<(), Broken> {
        let mut earlier_counts = 0;
        for (number, node) in numbered(&self.nodes) {
            let right = match node.kind {
                DIRECTORY => {
                    node.parent <= number
                        && self.is_directory(node.parent)
                        && node.first == earlier_counts
                }
                FILE => node.parent == 0 && node.first == 0 && node.count == 0,
                LINK => {
                    node.parent == 0
                        && (1..=4095).contains(&node.count)
                        && self
                            .text_part(node.first, node.count)
                            .is_some_and(|body| !body.contains(&0))
                }
                MAGIC => node.parent == 0,
                _ => false,
            };
            if !right {
                return broken(4, number);
            }
            if node.kind == DIRECTORY {
                earlier_counts += node.count;
            }
        }
        if earlier_counts != self.entries.len() as u64 {
            return broken(4, self.nodes.len() as u64);
        }
        Ok(())
    }

    fn rule_5(&self) -> Result<(), Broken> {
        // By rule 4 the directories, in order, own the entries, in order.
        for (number, node) in numbered(&self.nodes) {
            if node.kind != DIRECTORY {
                continue;
            }
            let mut before = None;
            for (record, entry) in (node.first..).zip(self.entries_of(node)) {
                if !self.entry_is_right(number, entry, before) {
                    return broken(5, record);
                }
                before = self.name(entry);
            }
        }
        Ok(())
    }

    fn entry_is_right(&self, directory: u64, entry: &Entry, before: Option<&[u8]>) -> bool {
        let (Some(name), Some(node)) = (self.name(entry), self.node(entry.node)) else {
            return false;
        };
        (1..=LONGEST_NAME).contains(&name.len())
            && !name.contains(&0)
            && !name.contains(&b'/')
            && name != b"."
            && name != b".."
            && before.is_none_or(|before| before < name)
            && (node.kind != DIRECTORY || (node.parent == directory && entry.node > directory))
    }

    fn rule_6(&self) -> Result<(), Broken> {
        for (number, mount) in numbered(&self.mounts) {
            let placed = if number == 0 {
                mount.parent == 0 && mount.point == mount.root
            } else {
                mount.parent < number
                    && self.is_directory(mount.point)
                    && self.mount(mount.parent).is_some_and(|parent| {
                        mount.point != parent.root && self.is_under(mount.point, parent.root)
                    })
                    && !numbered(&self.mounts).any(|(earlier, other)| {
                        (1..number).contains(&earlier)
                            && other.parent == mount.parent
                            && other.point == mount.point
                    })
            };
            if !(self.is_directory(mount.root) && mount.zero == 0 && placed) {
                return broken(6, number);
            }
        }
        Ok(())
    }

    fn rule_7(&self) -> Result<(), Broken> {
        for (number, node) in numbered(&self.nodes) {
            if node.kind != MAGIC {
                continue;
            }
            let (target_mount, target) = (node.first, node.count);
            let right = self.mount(target_mount).is_some_and(|mount| {
                match self.node(target).map(|node| node.kind) {
                    Some(FILE) => true,
                    Some(DIRECTORY) => self.is_under(target, mount.root),
                    _ => false,
                }
            });
            if !right {
                return broken(7, number);
            }
        }
        Ok(())
    }

    /// The mount, other than mount 0, whose point in its parent is this place.
    pub fn covering(&self, place: Place) -> Option<(u64, &Mount)> {
        numbered(&self.mounts).find(|(number, mount)| {
            *number != 0 && mount.parent == place.mount && mount.point == place.node
        })
    }

    /// Mount 0's root.
    pub fn top(&self) -> Place {
        Place { mount: 0, node: self.mounts.first().map_or(0, |mount| mount.root) }
    }

    /// What the handle checks answer; none for a good handle.
    pub fn handle_errno(&self, handle: Place) -> Option<u64> {
        let (Some(mount), Some(node)) = (self.mount(handle.mount), self.node(handle.node)) else {
            return Some(EBADF);
        };
        if node.kind != DIRECTORY {
            return Some(ENOTDIR);
        }
        if !self.is_under(handle.node, mount.root) || self.covering(handle).is_some() {
            return Some(EBADF);
        }
        None
    }

    /// The node that a directory names so, if it does.
    fn lookup(&self, directory: u64, name: &[u8]) -> Option<u64> {
        self.entries_of(self.node(directory)?)
            .iter()
            .find(|entry| self.name(entry) == Some(name))
            .map(|entry| entry.node)
    }
}

// -------------------------------------------------------------- the answers

#[derive(Clone, Copy, Debug, PartialEq, Eq, PartialOrd, Ord)]
pub struct Place {
    pub mount: u64,
    pub node: u64,
}

#[derive(Clone, Copy, Debug, PartialEq, Eq)]
pub enum Answer {
    Found { place: Place, components: u64, links: u64 },
    Refused { errno: u64, detail: u64, components: u64, links: u64 },
}

impl Answer {
    /// A refusal before the walk.
    pub fn refused(errno: u64, detail: u64) -> Answer {
        Answer::Refused { errno, detail, components: 0, links: 0 }
    }

    /// errno (0 for found), detail, mount, node, components, links.
    pub fn numbers(&self) -> [u64; 6] {
        match *self {
            Answer::Found { place, components, links } => {
                [0, NO_DETAIL, place.mount, place.node, components, links]
            }
            Answer::Refused { errno, detail, components, links } => {
                [errno, detail, 0, 0, components, links]
            }
        }
    }
}

// ----------------------------------------------------------- the restrictions

#[derive(Clone, Copy, Debug, Default, PartialEq, Eq)]
pub struct Restrictions {
    pub mark: bool,
    pub beneath: bool,
    pub no_xdev: bool,
    pub no_magiclinks: bool,
    pub no_symlinks: bool,
}

impl Restrictions {
    pub fn new(mark: bool, resolve: u64) -> Restrictions {
        Restrictions {
            mark,
            beneath: resolve & BENEATH != 0,
            no_xdev: resolve & NO_XDEV != 0,
            no_magiclinks: resolve & NO_MAGICLINKS != 0,
            no_symlinks: resolve & NO_SYMLINKS != 0,
        }
    }
}

/// An event of the walk, with the condition that its row asks for.
#[derive(Clone, Copy, Debug, PartialEq, Eq)]
pub enum Event {
    Start,
    Escape,
    Cross,
    Link,
    /// `leaves`: the target's mount is not the current one.
    Magic {
        leaves: bool,
    },
    /// `leaves`: the current mount is not the root's.
    Jump {
        leaves: bool,
    },
}

impl Event {
    /// The error that the table of forbidden events gives, tried from left to
    /// right over the restrictions set; none if they let the event pass.
    pub fn forbidden(&self, set: Restrictions) -> Option<u64> {
        let row: &[(bool, u64)] = match *self {
            Event::Start | Event::Escape => &[(set.mark, ENOENT), (set.beneath, EXDEV)],
            Event::Cross => &[(set.no_xdev, EXDEV)],
            Event::Link => &[(set.no_symlinks, ELOOP)],
            Event::Magic { leaves } => &[
                (set.mark, ENOENT),
                (set.no_magiclinks, ELOOP),
                (set.no_xdev && leaves, EXDEV),
                (set.beneath, EXDEV),
            ],
            Event::Jump { leaves } => {
                &[(set.mark, ENOENT), (set.beneath, EXDEV), (set.no_xdev && leaves, EXDEV)]
            }
        };
        row.iter().find(|(forbids, _)| *forbids).map(|(_, errno)| *errno)
    }
}

/// An event as the walk met it, with the counts reached there.
#[derive(Clone, Copy, Debug, PartialEq, Eq)]
pub struct Met {
    pub event: Event,
    pub components: u64,
    pub links: u64,
}

/// Demand 3 (RULES 12.3): what a second call must answer with `added` restrictions
/// beside those `set` in the first, from the first answer and its events.
pub fn second_answer(
    first: Answer,
    events: &[Met],
    set: Restrictions,
    added: Restrictions,
) -> Answer {
    let all = Restrictions {
        mark: set.mark || added.mark,
        beneath: set.beneath || added.beneath,
        no_xdev: set.no_xdev || added.no_xdev,
        no_magiclinks: set.no_magiclinks || added.no_magiclinks,
        no_symlinks: set.no_symlinks || added.no_symlinks,
    };
    events
        .iter()
        .find(|met| met.event.forbidden(added).is_some())
        .and_then(|met| {
            Some(Answer::Refused {
                errno: met.event.forbidden(all)?,
                detail: NO_DETAIL,
                components: met.components,
                links: met.links,
            })
        })
        .unwrap_or(first)
}

// -------------------------------------------------------------- before the walk

/// The fields of an open_how that passed its check.
struct OpenHow {
    flags: u64,
    resolve: u64,
}

/// The resolve field, if there are bytes enough to hold one.
pub fn resolve_field(how: &[u8]) -> Option<u64> {
    how.get(16..24).map(value)
}

/// The flags of an open_how that has its 24 bytes.
pub fn flags_field(how: &[u8]) -> Option<u64> {
    how.get(..24).map(|fields| value(&fields[..8]))
}

/// The open_how check; a refusal is errno and detail.
fn read_how(how: &[u8]) -> Result<OpenHow, (u64, u64)> {
    if how.len() < 24 {
        return Err((EINVAL, NO_DETAIL));
    }
    if how.len() > 4096 || how[24..].iter().any(|byte| *byte != 0) {
        return Err((E2BIG, NO_DETAIL));
    }
    let flags = value(&how[0..8]);
    let mode_and_padding = value(&how[8..16]);
    let resolve = value(&how[16..24]);
    let unknown_flag = (0..64).find(|bit| (flags & !KNOWN_FLAGS) >> bit & 1 == 1);
    if let Some(bit) = unknown_flag {
        return Err((EINVAL, bit));
    }
    let unknown_resolve = (0..64).find(|bit| (resolve & !KNOWN_RESOLVE) >> bit & 1 == 1);
    if let Some(bit) = unknown_resolve {
        return Err((EINVAL, 64 + bit));
    }
    if resolve & BENEATH != 0 && resolve & IN_ROOT != 0 {
        return Err((EINVAL, NO_DETAIL));
    }
    if mode_and_padding != 0 {
        return Err((EINVAL, NO_DETAIL));
    }
    Ok(OpenHow { flags, resolve })
}

/// The path check; a refusal is an errno.
fn check_path(path: &[u8]) -> Result<(), u64> {
    if path.len() > LONGEST_PATH {
        Err(ENAMETOOLONG)
    } else if path.is_empty() {
        Err(ENOENT)
    } else if path.contains(&0) {
        Err(EINVAL)
    } else {
        Ok(())
    }
}

/// Whether nothing that comes before the handle refuses the call, over an accepted table.
pub fn comes_to_handle(path: &[u8], how: &[u8]) -> bool {
    read_how(how).is_ok() && check_path(path).is_ok()
}

/// Request 2026-03: "with an absolute path, no IN_ROOT and no mark, the handle isn't checked.
/// A marked handle is still checked first".
pub fn handle_is_checked(mark: bool, path: &[u8], resolve: u64) -> bool {
    mark || resolve & IN_ROOT != 0 || !path.starts_with(b"/")
}

/// The answer, with the events that the walk meets in the order met; a call
/// refused before the walk meets none. `table` is what the image holds, if that
/// is accepted.
pub fn resolve_with_events(
    table: Option<&Table>,
    handle: Place,
    mark: bool,
    path: &[u8],
    how: &[u8],
) -> (Answer, Vec<Met>) {
    match table {
        Some(table) => resolve_in(table, handle, mark, path, how),
        None => (Answer::refused(EUCLEAN, NO_DETAIL), Vec::new()),
    }
}

/// The same for an accepted table.
pub fn resolve_in(
    table: &Table,
    handle: Place,
    mark: bool,
    path: &[u8],
    how: &[u8],
) -> (Answer, Vec<Met>) {
    let Walked { answer, events, .. } = walked_in(table, handle, mark, path, how);
    (answer, events)
}

/// An answer with what led to it, which it does not show.
pub struct Walked {
    pub answer: Answer,
    pub events: Vec<Met>,
    /// The places stood on, in order (RULES 9.21).
    pub stood: Vec<Place>,
}

impl From<Answer> for Walked {
    /// Refused before the walk.
    fn from(answer: Answer) -> Walked {
        Walked { answer, events: Vec::new(), stood: Vec::new() }
    }
}

/// The same with the places that the walk stands on.
pub fn walked_in(table: &Table, handle: Place, mark: bool, path: &[u8], how: &[u8]) -> Walked {
    let how = match read_how(how) {
        Ok(how) => how,
        Err((errno, detail)) => return Answer::refused(errno, detail).into(),
    };
    if let Err(errno) = check_path(path) {
        return Answer::refused(errno, NO_DETAIL).into();
    }
    let checks = handle_is_checked(mark, path, how.resolve);
    if let Some(errno) = table.handle_errno(handle).filter(|_| checks) {
        return Answer::refused(errno, NO_DETAIL).into();
    }
    let top = table.top();
    let in_root = how.resolve & IN_ROOT != 0;
    let path_ends_in_slash = path.ends_with(b"/");
    let walk = Walk {
        table,
        handle,
        top,
        root: if in_root { handle } else { top },
        in_root,
        set: Restrictions::new(mark, how.resolve),
        follow_last: how.flags & O_NOFOLLOW == 0 || path_ends_in_slash,
        link_is_wanted: how.flags & O_PATH != 0,
        directory_required: how.flags & O_DIRECTORY != 0 || path_ends_in_slash,
        here: handle,
        pending: VecDeque::new(),
        components: 0,
        links: 0,
        events: Vec::new(),
        stood: Vec::new(),
    };
    walk.run(path)
}

// ---------------------------------------------------------------------- the walk

struct Walk<'t> {
    table: &'t Table<'t>,
    handle: Place,
    /// Mount 0's root.
    top: Place,
    /// The handle under IN_ROOT, else the top.
    root: Place,
    in_root: bool,
    set: Restrictions,
    follow_last: bool,
    link_is_wanted: bool,
    directory_required: bool,
    here: Place,
    /// The components left in all texts still open, the innermost text's
    /// first: a component is last if it leaves none here.
    pending: VecDeque<&'t [u8]>,
    components: u64,
    links: u64,
    events: Vec<Met>,
    stood: Vec<Place>,
}

/// Slashes part components; repeats count as one.
fn components_of(text: &[u8]) -> impl DoubleEndedIterator<Item = &[u8]> {
    text.split(|byte| *byte == b'/').filter(|component| !component.is_empty())
}

impl<'t> Walk<'t> {
    fn run(mut self, path: &'t [u8]) -> Walked {
        let answer = match self.go(path) {
            Ok(()) => {
                Answer::Found { place: self.here, components: self.components, links: self.links }
            }
            Err(errno) => Answer::Refused {
                errno,
                detail: NO_DETAIL,
                components: self.components,
                links: self.links,
            },
        };
        Walked { answer, events: self.events, stood: self.stood }
    }

    fn go(&mut self, path: &'t [u8]) -> Result<(), u64> {
        if path.starts_with(b"/") {
            self.meet(Event::Start)?;
            self.here = self.root;
        }
        self.stood.push(self.here);
        self.pending.extend(components_of(path));
        while let Some(component) = self.pending.pop_front() {
            self.components += 1;
            match component {
                b"." => {}
                b".." => self.up()?,
                name => self.down(name)?,
            }
            self.stood.push(self.here);
            if !self.pending.is_empty() && self.kind()? != DIRECTORY {
                return Err(ENOTDIR);
            }
        }
        let kind = self.kind()?;
        if self.directory_required && kind != DIRECTORY {
            return Err(ENOTDIR);
        }
        if (kind == LINK || kind == MAGIC) && !self.link_is_wanted {
            return Err(ELOOP);
        }
        Ok(())
    }

    /// The kind of the node stood on. All numbers of an accepted table are in
    /// range, so the error is never given.
    fn kind(&self) -> Result<u64, u64> {
        Ok(self.table.node(self.here.node).ok_or(EUCLEAN)?.kind)
    }

    /// Notes the event, then lets the restrictions set refuse it.
    fn meet(&mut self, event: Event) -> Result<(), u64> {
        self.events.push(Met { event, components: self.components, links: self.links });
        event.forbidden(self.set).map_or(Ok(()), Err)
    }

    /// The component "..".
    fn up(&mut self) -> Result<(), u64> {
        if self.here == self.handle {
            self.meet(Event::Escape)?;
        }
        if self.here == self.root || self.here == self.top {
            return Ok(());
        }
        let mount = self.table.mount(self.here.mount).ok_or(EUCLEAN)?;
        if self.here.node == mount.root {
            self.meet(Event::Cross)?;
            self.here = Place { mount: mount.parent, node: mount.point };
        }
        let parent = self.table.node(self.here.node).ok_or(EUCLEAN)?.parent;
        self.stand_on(parent)
    }

    /// A node reached in the current mount by a name or as a parent; if it is
    /// covered there, the mount on it is entered.
    fn stand_on(&mut self, node: u64) -> Result<(), u64> {
        self.here.node = node;
        if let Some((number, mount)) = self.table.covering(self.here) {
            self.meet(Event::Cross)?;
            self.here = Place { mount: number, node: mount.root };
        }
        Ok(())
    }

    /// A component that is a name.
    fn down(&mut self, name: &[u8]) -> Result<(), u64> {
        if name.len() > LONGEST_NAME {
            return Err(ENAMETOOLONG);
        }
        let number = self.table.lookup(self.here.node, name).ok_or(ENOENT)?;
        let node = self.table.node(number).ok_or(EUCLEAN)?;
        let is_link = node.kind == LINK || node.kind == MAGIC;
        let last = self.pending.is_empty();
        if is_link && (!last || self.follow_last) {
            self.follow(node, last)
        } else {
            self.stand_on(number)
        }
    }

    /// Follows a link named by the directory stood on.
    fn follow(&mut self, link: &Node, last: bool) -> Result<(), u64> {
        if self.links == MOST_LINKS {
            return Err(ELOOP);
        }
        self.meet(Event::Link)?;
        if link.kind == MAGIC {
            let target = Place { mount: link.first, node: link.count };
            self.meet(Event::Magic { leaves: target.mount != self.here.mount })?;
            if self.in_root {
                return Err(EXDEV);
            }
            self.here = target;
        } else {
            let body = self.table.text_part(link.first, link.count).ok_or(EUCLEAN)?;
            if body.starts_with(b"/") {
                self.meet(Event::Jump { leaves: self.here.mount != self.root.mount })?;
                self.here = self.root;
            }
            if last && body.ends_with(b"/") {
                self.directory_required = true;
            }
            for component in components_of(body).rev() {
                self.pending.push_front(component);
            }
        }
        self.links += 1;
        Ok(())
    }
}

#[cfg(test)]
mod tests;
