//! Builds: parts of a tree as they are, laid otherwise, damaged, cut short, too many or too
//! long; and buffers that just hold the image or just do not.

use super::damage::{damage, ended_field};
use super::listings::listing;
use super::tables::table;
use super::texts::relaid;
use crate::build::Build;
use crate::builder::{written_length, Parts, LONGEST_IMAGE};
use crate::resolver::LINK;
use data::dice::Dice;
use data::fields::{number_at, put, set, Layout, ENTRY, MOUNT, NODE};

/// So many builds from one table.
pub fn builds(dice: &mut Dice, many: usize) -> Vec<Build> {
    let image = if dice.percent(92) { table(dice) } else { listing(dice) };
    let whole = Parts::of(&image);
    (0..many).map(|_| one_build(dice, &whole)).collect()
}

fn one_build(dice: &mut Dice, whole: &Parts) -> Build {
    let mut parts = if dice.percent(60) { relaid(dice, whole) } else { whole.clone() };
    // Several at once are for the order of the rules.
    for _ in 0..dice.pick(&[0, 0, 0, 0, 0, 1, 1, 1, 1, 1, 2, 3]) {
        spoil(dice, &mut parts);
    }
    let room = room(dice, written_length(&parts.table()) as usize);
    Build { parts, room }
}

/// The length of a buffer, for an image of so many bytes or as many as would be.
fn room(dice: &mut Dice, length: usize) -> usize {
    let length = length.min(LONGEST_IMAGE as usize);
    match dice.below(20) {
        0..=6 => length,
        7..=9 => length - 1,
        10 | 11 => length + 1,
        12 => 0,
        13 => dice.below(length),
        14 => dice.pick(&[1, 19, 20, 21]),
        15 => LONGEST_IMAGE as usize,
        _ => length + dice.below(40),
    }
}

fn spoil(dice: &mut Dice, parts: &mut Parts) {
    match dice.below(100) {
        0..=18 => in_image(dice, parts, |dice, image| ended_field(dice, image)),
        19..=38 => in_image(dice, parts, |dice, image| *image = damage(dice, image)),
        39..=52 => cut(dice, parts),
        53..=68 => offset(dice, parts),
        69..=76 => text_end(dice, parts),
        77..=88 => declared(dice, parts),
        89..=93 => fill(dice, parts),
        94..=96 => crowd(dice, parts),
        97 => fill_and_cut(dice, parts),
        _ => uncounted(dice, parts),
    }
}

/// Damage as an image takes it, to records and text.
fn in_image(dice: &mut Dice, parts: &mut Parts, damage: impl FnOnce(&mut Dice, &mut Vec<u8>)) {
    let mut image = parts.as_they_are();
    let layout = Layout::of(&image);
    // A header tells where the parts are only if it can.
    if Parts::cut(&image, &layout) == *parts {
        damage(dice, &mut image);
        *parts = Parts::cut(&image, &layout);
    }
}

/// The records of one kind, and how long one is.
fn some_records<'a>(dice: &mut Dice, parts: &'a mut Parts) -> (&'a mut Vec<u8>, usize) {
    match dice.below(3) {
        0 => (&mut parts.nodes, NODE),
        1 => (&mut parts.mounts, MOUNT),
        _ => (&mut parts.entries, ENTRY),
    }
}

/// A last record cut short, or a part of one more.
fn cut(dice: &mut Dice, parts: &mut Parts) {
    let (records, width) = some_records(dice, parts);
    match dice.below(10) {
        0..=3 => records.truncate(records.len().saturating_sub(dice.from(1, width - 1))),
        4 => records.truncate(dice.below(records.len() + 1)),
        5 => records.truncate(dice.below(width)),
        _ => records.extend((0..dice.from(1, width - 1)).map(|_| dice.roll() as u8)),
    }
}

/// A name or a body, by the place of its offset in its records, and its length.
struct Told {
    is_name: bool,
    at: usize,
    length: usize,
}

impl Told {
    /// One of them, often the first or the last.
    fn some(dice: &mut Dice, parts: &Parts) -> Option<Told> {
        let tree = parts.table();
        let links = tree.nodes.iter().enumerate().filter(|(_, node)| node.kind == LINK);
        let bodies: Vec<Told> = links
            .map(|(number, link)| Told {
                is_name: false,
                at: NODE * number + 4,
                length: link.count as usize,
            })
            .collect();
        let names = tree.entries.len();
        if names > 0 && (bodies.is_empty() || dice.percent(55)) {
            let at = ENTRY * one_of(dice, names);
            return Some(Told { is_name: true, at, length: number_at(&parts.entries, at + 4, 2) });
        }
        let at = one_of(dice, bodies.len());
        bodies.into_iter().nth(at)
    }

    fn set_offset(&self, parts: &mut Parts, offset: usize) {
        let records = if self.is_name { &mut parts.entries } else { &mut parts.nodes };
        set(records, self.at, 4, offset);
    }

    fn set_length(&self, parts: &mut Parts, length: usize) {
        let (records, width) =
            if self.is_name { (&mut parts.entries, 2) } else { (&mut parts.nodes, 4) };
        set(records, self.at + 4, width, length);
    }
}

/// First, last or any.
fn one_of(dice: &mut Dice, many: usize) -> usize {
    let any = dice.below(many);
    dice.pick(&[0, many.saturating_sub(1), any, any])
}

/// An offset with which the text ends at the end of the whole, or a byte further; past the
/// end; or such that sums of 32 or 16 bits wrap.
fn offset(dice: &mut Dice, parts: &mut Parts) {
    let Some(told) = Told::some(dice, parts) else { return };
    let (end, length) = (parts.text.len(), told.length);
    let offset = match dice.below(9) {
        0 | 1 => end.saturating_sub(length),
        2 | 3 => end.saturating_sub(length) + 1,
        4 => end,
        5 => end + dice.below(3),
        6 => 0x1_0000_0000 - dice.from(1, length.max(1)),
        7 => 0xFFFF_FFFF - dice.below(2),
        _ => dice.below(end) + 0x1_0000,
    };
    told.set_offset(parts, offset);
}

/// The text a few bytes shorter or longer, or none at all.
fn text_end(dice: &mut Dice, parts: &mut Parts) {
    match dice.below(8) {
        0..=3 => parts.text.truncate(parts.text.len().saturating_sub(dice.from(1, 3))),
        4 => parts.text.truncate(dice.below(parts.text.len() + 1)),
        5 => parts.text.clear(),
        6 => parts.text.insert(0, dice.pick(b"\0/a")),
        _ => parts.text.extend((0..dice.from(1, 9)).map(|_| dice.pick(b"\0/.a"))),
    }
}

/// A length that brings the sum of all to the most, or near, or far over; or such that sums of
/// 32 or 16 bits wrap.
fn declared(dice: &mut Dice, parts: &mut Parts) {
    let length = written_length(&parts.table()) as usize;
    let Some(told) = Told::some(dice, parts) else { return };
    let left = LONGEST_IMAGE as usize + told.length - length.min(LONGEST_IMAGE as usize);
    let declared = match dice.below(10) {
        0..=2 => left,
        3..=5 => left + 1,
        6 => left.saturating_sub(1),
        7 => told.length + 0x1_0000,
        8 => 0x1_0000_0000 - dice.from(1, length),
        _ => dice.pick(&[0, 256, 4096, 65_535, 0xFFFF_FFFF]),
    };
    told.set_length(parts, declared);
}

/// Links up to the longest image, or a byte less or more; sometimes with bodies outside.
fn fill(dice: &mut Dice, parts: &mut Parts) {
    let to = LONGEST_IMAGE as usize - 1 + dice.below(3);
    let is_inside = dice.percent(80);
    fill_to(dice, parts, to, is_inside);
}

fn fill_to(dice: &mut Dice, parts: &mut Parts, to: usize, is_inside: bool) {
    // All the bodies share one text, or that of the tree.
    let body = parts.text.len();
    if is_inside {
        parts.text.extend(vec![dice.pick(b"ab./\x80"); 4095]);
    }
    let mut left = to.saturating_sub(written_length(&parts.table()) as usize);
    while left > NODE {
        // Something is left for one more, or nothing.
        let most = if left - NODE <= 4095 { left - NODE } else { (left - 2 * NODE - 1).min(4095) };
        let length =
            if dice.percent(90) || left - NODE <= 4095 { most } else { dice.from(1, most) };
        for (number, width) in [(3, 2), (0, 2), (body, 4), (length, 4)] {
            put(&mut parts.nodes, number, width);
        }
        left -= NODE + length;
    }
}

/// As long as an image can be but for a few bytes, and a record cut short: it is not counted.
fn fill_and_cut(dice: &mut Dice, parts: &mut Parts) {
    let to = LONGEST_IMAGE as usize - dice.below(8);
    fill_to(dice, parts, to, true);
    cut(dice, parts);
}

/// Records of one kind up to a limit of their count, or so many that it is right again if it
/// is cut to 16 bits.
fn crowd(dice: &mut Dice, parts: &mut Parts) {
    let (records, width) = some_records(dice, parts);
    let many = records.len() / width;
    let counts = [0, 0, 1, 1, 255, 256, 257, 4095, 4096, 4097, 5459, 5460, many + 65_536, 65_535];
    let wanted = width * dice.pick(&counts);
    // Files, as far as these are nodes, or the last record again.
    let last = records.len().saturating_sub(width);
    let again = records.get(last..last + width).unwrap_or_default().to_vec();
    let mut file = vec![0; width];
    file[0] = 2;
    let more = if again.is_empty() || width == NODE { file } else { again };
    while records.len() < wanted {
        records.extend(&more);
    }
    records.truncate(wanted);
}

/// A count of what has no body, so large that the image were too long if it were one; or of a
/// record's kind that is none.
fn uncounted(dice: &mut Dice, parts: &mut Parts) {
    let nodes = parts.nodes.len() / NODE;
    let at = NODE * one_of(dice, nodes);
    if number_at(&parts.nodes, at, 2) != 3 || dice.percent(30) {
        let kind = dice.pick(&[0, 1, 2, 2, 4, 5, 0x103]);
        if dice.percent(70) {
            set(&mut parts.nodes, at, 2, kind);
        }
        let count = dice.pick(&[65_536, 70_000, 0xFFFF_FFFF]);
        set(&mut parts.nodes, at + 8, 4, count);
    }
}
