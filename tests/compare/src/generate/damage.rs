//! Damage to images, though by chance they can still be accepted.

use data::dice::Dice;
use data::fields::{number_at, set, Layout};

/// The image spoiled.
pub fn damage(dice: &mut Dice, image: &[u8]) -> Vec<u8> {
    let mut spoiled = image.to_vec();
    // Not every way finds something to spoil in every image.
    for _ in 0..3 {
        if spoiled == image {
            spoil(dice, &mut spoiled);
        }
    }
    spoiled
}

fn spoil(dice: &mut Dice, image: &mut Vec<u8>) {
    let layout = Layout::of(image);
    match dice.below(100) {
        0..=4 => image.truncate(dice.below(image.len() + 1)),
        5..=7 => image.truncate(dice.below(20)),
        8..=9 => {
            let length = image.len().saturating_sub(dice.from(1, 4));
            image.truncate(length);
            set(image, 16, 4, length);
        }
        10..=12 => lengthen(dice, image, &layout),
        13 if dice.one_in(8) => longest(dice, image, &layout),
        14..=19 => {
            let at = dice.pick(&[0, 1, 2, 3, 10, 11]);
            if let Some(byte) = image.get_mut(at) {
                *byte ^= 1 << dice.below(8);
            }
        }
        20..=23 => one_byte(dice, image, 0),
        24..=30 => one_byte(dice, image, layout.text_at),
        31..=32 => wrapping_header(dice, image, &layout),
        33..=35 => wrapping_counts(dice, image, &layout),
        36..=38 => wrapping_part(dice, image, &layout),
        39..=43 => swap_entries(dice, image, &layout),
        44..=47 => entry_text(dice, image, &layout),
        48..=53 => mount_clash(dice, image, &layout),
        54..=63 => magic_target(dice, image, &layout),
        64..=65 => by_chance(dice, image),
        _ => some_fields(dice, image, &layout),
    }
}

/// A few bytes more, of which the header knows or not.
fn lengthen(dice: &mut Dice, image: &mut Vec<u8>, layout: &Layout) {
    let more = dice.from(1, 9);
    image.extend((0..more).map(|_| dice.roll() as u8));
    if dice.percent(50) {
        let length = image.len();
        set(image, 16, 4, length);
    }
    if dice.percent(50) {
        set(image, 12, 4, layout.text + more);
    }
}

/// Text up to the longest image, and one byte more.
fn longest(dice: &mut Dice, image: &mut Vec<u8>, layout: &Layout) {
    let length: usize = dice.pick(&[65_535, 65_536, 65_536, 65_537]);
    let more = length.saturating_sub(image.len());
    image.resize(length, 0);
    set(image, 12, 4, layout.text + more);
    set(image, 16, 4, length);
}

/// A number near a limit in a field of a first, middle or last record of any kind.
pub fn ended_field(dice: &mut Dice, image: &mut [u8]) {
    let layout = Layout::of(image);
    let mut one_of = |many: usize| dice.pick(&[0, many / 2, many.saturating_sub(1)]);
    let [node, mount, entry] = [layout.nodes, layout.mounts, layout.entries].map(&mut one_of);
    let (node, mount, entry) = (layout.node(node), layout.mount(mount), layout.entry(entry));
    let nodes = [(node, 2), (node + 2, 2), (node + 4, 4), (node + 8, 4)];
    let mounts = [0, 2, 4, 6].map(|field| (mount + field, 2));
    let entries = [(entry, 4), (entry + 4, 2), (entry + 6, 2)];
    let (at, width) = match dice.below(3) {
        0 => dice.pick(&nodes),
        1 => dice.pick(&mounts),
        _ => dice.pick(&entries),
    };
    let record = if at < layout.mounts_at { 12 } else { 8 };
    let number = near_a_limit(dice, image, &layout, &Field { at, width, record });
    set(image, at, width, number);
}

/// A field: its offset, its width, and that of its records (0 in the header).
struct Field {
    at: usize,
    width: usize,
    record: usize,
}

fn some_fields(dice: &mut Dice, image: &mut [u8], layout: &Layout) {
    for _ in 0..dice.pick(&[1, 1, 1, 1, 1, 2, 3]) {
        let field = some_field(dice, layout);
        let number = near_a_limit(dice, image, layout, &field);
        set(image, field.at, field.width, number);
    }
}

fn some_field(dice: &mut Dice, layout: &Layout) -> Field {
    let (width, at, record) = match dice.below(100) {
        0..=9 => {
            let (at, width) =
                dice.pick(&[(0, 4), (4, 2), (6, 2), (8, 2), (10, 2), (12, 4), (16, 4)]);
            (width, at, 0)
        }
        40..=69 if layout.entries > 0 => {
            let (field, width) = dice.pick(&[(0, 4), (4, 2), (6, 2)]);
            (width, layout.entry(dice.below(layout.entries)) + field, 8)
        }
        40..=99 if layout.mounts > 0 => {
            let field = dice.pick(&[0, 2, 4, 6]);
            (2, layout.mount(dice.below(layout.mounts)) + field, 8)
        }
        _ => {
            let (field, width) = dice.pick(&[(0, 2), (2, 2), (4, 4), (8, 4)]);
            (width, layout.node(dice.below(layout.nodes)) + field, 12)
        }
    };
    Field { at, width, record }
}

/// A number for a field that is near a limit of some rule.
fn near_a_limit(dice: &mut Dice, image: &[u8], layout: &Layout, field: &Field) -> usize {
    let Field { at, width, record } = *field;
    let old = number_at(image, at, width);
    let most = if width == 2 { 0xFFFF } else { 0xFFFF_FFFF };
    match dice.below(20) {
        0 => 0,
        1 => dice.below(6),
        2 | 3 => old + 1,
        4 | 5 => old.wrapping_sub(1),
        6 => layout.nodes.wrapping_sub(dice.below(3)),
        7 => layout.mounts,
        8 => layout.entries,
        9 => layout.text.wrapping_sub(dice.below(3)),
        10 => layout.text + 1,
        11 => most - dice.below(2),
        12 => most / 2 + 1,
        13 => most.wrapping_sub(old).wrapping_add(dice.below(4)),
        14 => old ^ (1 << dice.below(8 * width)),
        15 => old + 0x1_0000,
        16 => dice.pick(&[255, 256, 4095, 4096]),
        // That of a neighbour.
        17 | 18 if at > record => number_at(image, at - record, width),
        _ => dice.below(layout.nodes + 1),
    }
}

fn one_byte(dice: &mut Dice, image: &mut [u8], from: usize) {
    let at = from + dice.below(image.len().saturating_sub(from));
    if let Some(byte) = image.get_mut(at) {
        *byte = match dice.below(4) {
            0 => dice.pick(b"\0/."),
            1 => byte.wrapping_add(1),
            2 => *byte ^ (1 << dice.below(8)),
            _ => dice.roll() as u8,
        };
    }
}

/// A text length with which the total fits if sums wrap at 32 bits.
fn wrapping_header(dice: &mut Dice, image: &mut [u8], layout: &Layout) {
    let more = dice.from(1, 9);
    let grown = layout.entries + more;
    set(image, 8, 2, grown);
    set(image, 12, 4, layout.text.wrapping_sub(8 * more));
}

/// Directory counts that sum to the same if sums wrap at 32 bits.
fn wrapping_counts(dice: &mut Dice, image: &mut [u8], layout: &Layout) {
    let nodes = (0..layout.nodes).map(|number| layout.node(number));
    let directories: Vec<usize> = nodes.filter(|at| number_at(image, *at, 2) == 1).collect();
    let half = dice.pick(&[0x8000_0000, 0x4000_0000]);
    let Some(at) = dice.choose(&directories).copied() else {
        return;
    };
    let count = number_at(image, at + 8, 4);
    set(image, at + 8, 4, count + half);
    let mut sum = 0;
    for at in &directories {
        set(image, at + 4, 4, sum);
        if Some(at) == directories.last() {
            set(image, at + 8, 4, layout.entries.wrapping_sub(sum));
        }
        sum += number_at(image, at + 8, 4);
    }
}

/// A name or body that ends inside the text only if sums wrap at 32 bits, or
/// just at or over its end.
fn wrapping_part(dice: &mut Dice, image: &mut [u8], layout: &Layout) {
    let far = |dice: &mut Dice, length: usize| match dice.below(3) {
        0 => 0x1_0000_0000 - dice.from(1, length.max(1)),
        1 => layout.text.wrapping_sub(length),
        _ => layout.text.wrapping_sub(length).wrapping_add(1),
    };
    if dice.percent(60) && layout.entries > 0 {
        let at = layout.entry(dice.below(layout.entries));
        let length = number_at(image, at + 4, 2);
        let offset = far(dice, length);
        set(image, at, 4, offset);
    } else {
        let at = layout.node(dice.below(layout.nodes));
        if number_at(image, at, 2) == 3 {
            let length = number_at(image, at + 8, 4);
            let offset = far(dice, length);
            set(image, at + 4, 4, offset);
        }
    }
}

fn swap_entries(dice: &mut Dice, image: &mut [u8], layout: &Layout) {
    if layout.entries < 2 {
        return;
    }
    let at = layout.entry(dice.below(layout.entries - 1));
    // The whole records, or the names alone, or one name over the other.
    let width = dice.pick(&[8, 6, 6]);
    let one = image[at..at + width].to_vec();
    let two = image[at + 8..at + 8 + width].to_vec();
    if dice.percent(50) {
        image[at..at + width].copy_from_slice(&two);
    }
    image[at + 8..at + 8 + width].copy_from_slice(&one);
}

/// A byte that no name may hold, or a name of dots.
fn entry_text(dice: &mut Dice, image: &mut [u8], layout: &Layout) {
    if layout.entries == 0 {
        return;
    }
    let at = layout.entry(dice.below(layout.entries));
    let start = layout.text_at + number_at(image, at, 4);
    let length = number_at(image, at + 4, 2);
    let end = (start + length).min(image.len());
    if start >= end {
        return;
    }
    if dice.percent(50) {
        let byte = dice.pick(b"\0/\x80");
        image[start + dice.below(end - start)] = byte;
    } else {
        image[start..end].fill(b'.');
    }
}

fn mount_clash(dice: &mut Dice, image: &mut [u8], layout: &Layout) {
    let one = dice.below(layout.mounts);
    let two = dice.below(layout.mounts);
    let fields = dice.pick(&[(2, 4), (2, 4), (4, 2), (0, 2)]);
    let from = layout.mount(one) + fields.0;
    let part: Vec<u8> = image.get(from..from + fields.1).unwrap_or(&[]).to_vec();
    let to = layout.mount(two) + fields.0;
    if let Some(place) = image.get_mut(to..to + part.len()) {
        place.copy_from_slice(&part);
    }
}

fn magic_target(dice: &mut Dice, image: &mut [u8], layout: &Layout) {
    let nodes = (0..layout.nodes).map(|number| layout.node(number));
    let magics: Vec<usize> = nodes.filter(|at| number_at(image, *at, 2) == 4).collect();
    let Some(at) = dice.choose(&magics) else {
        return;
    };
    let (at, most) = dice.pick(&[(*at + 4, layout.mounts), (*at + 8, layout.nodes)]);
    let value = match dice.below(8) {
        0 => most,
        1 => number_at(image, at, 4) + 0x1_0000,
        2 => number_at(image, at, 4) | 0x8000_0000,
        3 => 0xFFFF_FFFF,
        _ => dice.below(most),
    };
    set(image, at, 4, value);
}

/// Small random records behind a right header.
fn by_chance(dice: &mut Dice, image: &mut [u8]) {
    for byte in image.iter_mut().skip(20) {
        *byte = match dice.below(3) {
            0 => 0,
            1 => dice.below(5) as u8,
            _ => dice.roll() as u8,
        };
    }
    if dice.percent(20) {
        for byte in image.iter_mut() {
            *byte = dice.roll() as u8;
        }
    }
}
