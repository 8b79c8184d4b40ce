//! Paths, grown along the table.

use super::names::{long_name, name, slashes};
use crate::resolver::{resolve_in, Answer, Place, Table, DIRECTORY, FILE, LINK};
use data::dice::Dice;
use data::how;

/// A path as far as it is grown.
struct Growing<'a> {
    table: &'a Table<'a>,
    handle: Place,
    how: Vec<u8>,
    path: Vec<u8>,
}

/// A name in a directory, and the kind of its node.
type Named<'a> = (&'a [u8], u64);

fn is_link((_, kind): &Named) -> bool {
    *kind != FILE && *kind != DIRECTORY
}

impl<'a> Growing<'a> {
    /// Where the path, ended by a slash, leads, and over how many links.
    fn place(&self, more: &[u8]) -> Option<(Place, u64)> {
        let path = [&self.path[..], more].concat();
        if path.is_empty() {
            return Some((self.handle, 0));
        }
        match resolve_in(self.table, self.handle, false, &path, &self.how).0 {
            Answer::Found { place, links, .. } => Some((place, links)),
            Answer::Refused { .. } => None,
        }
    }

    fn names(&self, directory: Place) -> Vec<Named<'a>> {
        let node = self.table.node(directory.node);
        let entries = node.map_or(&[][..], |node| self.table.entries_of(node));
        let named = entries.iter().filter_map(|entry| {
            let kind = self.table.node(entry.node)?.kind;
            Some((self.table.name(entry)?, kind))
        });
        named.collect()
    }

    /// One more component, and how often it stands.
    fn component(&self, dice: &mut Dice, last: bool) -> (Vec<u8>, usize) {
        let here = self.place(b"");
        let names = here.map_or(Vec::new(), |(place, _)| self.names(place));
        if let Some((place, links)) = here.filter(|_| dice.percent(6)) {
            if let Some(name) = self.returning(dice, &names, place, links) {
                // Up to the most links, and just over.
                let wanted: u64 = dice.pick(&[38, 39, 40, 40, 40, 41]);
                return (name, wanted.saturating_sub(links).max(1) as usize);
            }
        }
        // Standing on a covered place, which only a magic link leads to, the
        // next step is of interest whatever it is.
        let covered = here.is_some_and(|(place, _)| self.table.covering(place).is_some());
        if covered && dice.percent(40) {
            return (dice.pick(&[".", ".."]).into(), 1);
        }
        let many = here.is_some_and(|(_, links)| links >= 39);
        let chosen = chosen(dice, &names, last, many);
        let component = component(dice, chosen);
        let times = match dice.below(300) {
            0..=5 => dice.from(2, 8),
            6..=8 => dice.from(20, 60),
            9 if dice.one_in(4) => dice.from(100, 2000),
            _ => 1,
        };
        (component, times)
    }

    /// A link that leads back to the same place.
    fn returning(
        &self,
        dice: &mut Dice,
        names: &[Named],
        place: Place,
        links: u64,
    ) -> Option<Vec<u8>> {
        let returns =
            |name: &[u8]| self.place(&[name, &b"/"[..]].concat()) == Some((place, links + 1));
        let tried = names.iter().filter(|named| is_link(named)).take(20).map(|(name, _)| *name);
        let returning: Vec<&[u8]> = tried.filter(|name| returns(name)).collect();
        dice.choose(&returning).map(|name| name.to_vec())
    }

    /// One more step, mostly one that is not refused.
    fn grow(&mut self, dice: &mut Dice, is_last: bool) {
        let before = self.path.len();
        let many = self.place(b"").is_some_and(|(_, links)| links >= 38);
        for _ in 0..4 {
            self.path.truncate(before);
            let (component, times) = self.component(dice, is_last);
            for _ in 0..times {
                self.path.extend(&component);
                self.path.extend(slashes(dice));
            }
            // A step that is refused is mostly taken back, to get further;
            // not where it is the most links that refuse it.
            let keeps = if is_last { 50 } else { 15 };
            if many || self.place(b"").is_some() || dice.percent(keeps) {
                break;
            }
        }
    }
}

/// One of the names; with `many` links followed mostly a link.
fn chosen<'a>(
    dice: &mut Dice,
    names: &'a [Named<'a>],
    last: bool,
    many: bool,
) -> Option<&'a Named<'a>> {
    let mut chosen = dice.choose(names);
    if many && dice.percent(60) {
        // The next link is one too many: what it is must not matter.
        let links: Vec<&Named> = names.iter().filter(|named| is_link(named)).collect();
        chosen = dice.choose(&links).copied().or(chosen);
    }
    for _ in 0..3 {
        // A file would end the walk.
        if !last && matches!(chosen, Some((_, FILE))) {
            chosen = dice.choose(names);
        }
    }
    chosen
}

/// The chosen name, or another component.
fn component(dice: &mut Dice, chosen: Option<&Named>) -> Vec<u8> {
    match (dice.below(200), chosen) {
        (0..=139, Some((name, _))) => name.to_vec(),
        (0..=139, None) if dice.percent(80) => b"..".to_vec(),
        (140..=176, _) => b"..".to_vec(),
        (177..=186, _) => b".".to_vec(),
        (187, _) => long_name(dice, 256),
        (188, _) => long_name(dice, 255),
        (189, _) => vec![b'.'; dice.from(3, 300)],
        _ => name(dice),
    }
}

/// Where a path is grown from, under which bits of resolve, and whether it is absolute.
#[derive(Clone, Copy)]
pub struct Origin {
    pub handle: Place,
    pub resolve: u64,
    pub is_absolute: bool,
}

/// Absolute paths that lead to the root.
const TO_ROOT: [&str; 9] = ["/", "//", "///", "/.", "/..", "//..", "/../", "/../..", "/../../"];

pub fn good_path(dice: &mut Dice, table: &Table, origin: Origin) -> Vec<u8> {
    // A body of the longest length is as long a path as there can be.
    let long = table.nodes.iter().find(|node| node.kind == LINK && node.count == 4095);
    if let Some(node) = long.filter(|_| dice.percent(25)) {
        return table.text_part(node.first, node.count).unwrap_or(b"/").to_vec();
    }
    let Origin { handle, resolve, is_absolute } = origin;
    let mut growing = Growing { table, handle, how: how(0, resolve), path: Vec::new() };
    if is_absolute && dice.percent(15) {
        return dice.pick(&TO_ROOT).into();
    }
    if is_absolute {
        growing.path.extend(slashes(dice));
        if dice.percent(10) {
            growing.path.extend(b"../");
        }
    }
    let steps = dice.pick(&[1, 2, 2, 3, 3, 4, 4, 5, 6, 8, 12]);
    for step in 1..=steps {
        growing.grow(dice, step == steps);
        // Beyond a refusal there is little to see, but not nothing.
        if dice.percent(90) && growing.place(b"").is_none() {
            break;
        }
    }
    ended(dice, growing.path)
}

/// The path, mostly without slashes at its end.
fn ended(dice: &mut Dice, mut path: Vec<u8>) -> Vec<u8> {
    if dice.percent(82) {
        while path.len() > 1 && path.last() == Some(&b'/') {
            path.pop();
        }
    }
    match dice.below(400) {
        // Up to the longest path, and just over, by slashes or dots.
        0 => pad(dice, path, b"/"),
        1 => pad(dice, path, b"./"),
        _ => path,
    }
}

/// The path made long in front, where a relative one stays so with dots.
fn pad(dice: &mut Dice, path: Vec<u8>, with: &[u8]) -> Vec<u8> {
    let length = dice.from(4094, 4096);
    let mut padded = Vec::new();
    while padded.len() + path.len() + with.len() <= length {
        padded.extend(with);
    }
    padded.extend(path);
    padded
}

pub fn bad_path(dice: &mut Dice, mut path: Vec<u8>) -> Vec<u8> {
    let way = dice.below(5);
    match way {
        0 => path.clear(),
        1 => path.resize(dice.pick(&[4096, 4096, 4097, 6000]), b'/'),
        2 => path = pad(dice, path, b"a"),
        3 => path = (0..dice.below(20)).map(|_| dice.roll() as u8).collect(),
        _ => {}
    }
    if way == 4 || dice.percent(10) {
        let at = dice.below(path.len());
        path.insert(at, 0);
    }
    path
}
