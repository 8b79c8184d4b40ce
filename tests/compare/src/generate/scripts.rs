//! Short scripts on descriptors in which every open is confined.

use super::pairs::{confined_path, restricted_how};
use crate::descriptors::Descriptors;
use crate::pair::{opened, HANDLE};
use crate::resolver::{Place, Table, BENEATH, IN_ROOT, O_DIRECTORY};
use data::dice::Dice;
use data::sequence::{Open, Step};

const LONGEST: usize = 12;

/// Calls from where only [`HANDLE`] is open, holding the handle; none if it cannot be opened.
pub fn script(dice: &mut Dice, table: &Table, handle: Place) -> Vec<Step> {
    let Some(mut descriptors) = opened(table, handle) else { return Vec::new() };
    let mut steps = Vec::new();
    for _ in 0..dice.from(1, LONGEST) {
        let step = step(dice, table, &descriptors);
        descriptors.act(Some(table), &step);
        steps.push(step);
    }
    steps
}

fn step(dice: &mut Dice, table: &Table, descriptors: &Descriptors) -> Step {
    let numbers = descriptors.open_ones();
    let mut number = dice.choose(&numbers).copied().unwrap_or(HANDLE);
    match dice.below(100) {
        0..=59 => Step::Open(open(dice, table, descriptors, number)),
        60..=71 => Step::Dup(number),
        72..=87 => Step::SetMark(number),
        // The last one is seldom closed, and others are mostly open.
        88..=97 if numbers.len() > 1 => Step::Close(number),
        _ => {
            number = dice.pick(&[0, 1, 2, 5, 64]);
            Step::Dup(number)
        }
    }
}

fn open(dice: &mut Dice, table: &Table, descriptors: &Descriptors, number: u64) -> Open {
    let is_marked = descriptors.is_marked(number);
    let scopes: &[u64] = if is_marked { &[0, 0, BENEATH, IN_ROOT] } else { &[BENEATH, IN_ROOT] };
    let scope = dice.pick(scopes);
    let mark = dice.percent(30);
    let mut how = restricted_how(dice, scope);
    if mark && dice.percent(80) {
        // O_DIRECTORY is the lowest bit of this byte.
        how[2] |= (O_DIRECTORY >> 16) as u8;
    }
    let place = descriptors.held(number).map(|held| held.place);
    let good = place.filter(|place| table.handle_errno(*place).is_none());
    let path = match good {
        Some(place) => confined_path(dice, table, place, &how),
        None => dice.pick(&[".", "/", "a", ".."]).into(),
    };
    Open { number, mark, path, how, ..Open::default() }
}
