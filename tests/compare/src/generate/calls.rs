//! Calls.

use super::damage::damage;
use super::handles::{bad_handle, good_handle};
use super::hows::{bad_how, scoped_how, SCOPES};
use super::paths::{bad_path, good_path, Origin};
use crate::case::{Call, ADDABLE};
use crate::resolver::{resolve_field, Place, Table, BENEATH, IN_ROOT};
use data::dice::Dice;

/// How many in a hundred calls have it, and the scopes that they have alike often.
struct Shares {
    bad_handle: usize,
    absolute: usize,
    mark: usize,
    scopes: &'static [u64],
}

const USUAL: Shares = Shares { bad_handle: 5, absolute: 16, mark: 7, scopes: &SCOPES };

/// In calls about the handle. Whether that is checked hangs on all of these.
const ABOUT_HANDLE: Shares =
    Shares { bad_handle: 85, absolute: 65, mark: 35, scopes: &[0, 0, BENEATH, IN_ROOT] };

/// A call on an image; `table` is its reading if it is accepted.
pub fn call(dice: &mut Dice, image: &[u8], table: Option<&Table>) -> Call {
    let shares = if dice.percent(15) { ABOUT_HANDLE } else { USUAL };
    // In a few calls many things are wrong at once, for the order of checks.
    let trouble = dice.percent(5);
    let wrong = |dice: &mut Dice, share: usize| dice.percent(if trouble { 40 } else { share });
    let scope = dice.pick(shares.scopes);
    let how = if wrong(dice, 5) { bad_how(dice) } else { scoped_how(dice, scope) };
    let resolve = resolve_field(&how).unwrap_or(0) & IN_ROOT;
    let good = table.map_or(Place { mount: 0, node: 0 }, |table| good_handle(dice, table));
    let Place { mount, node } = match table {
        Some(table) if wrong(dice, shares.bad_handle) => bad_handle(dice, table),
        _ => good,
    };
    let origin = Origin { handle: good, resolve, is_absolute: dice.percent(shares.absolute) };
    let mut path = match table {
        Some(table) => good_path(dice, table, origin),
        None => b"a/../b".to_vec(),
    };
    if wrong(dice, 2) {
        path = bad_path(dice, path);
    }
    let mut image = image.to_vec();
    if wrong(dice, 2) {
        image = damage(dice, &image);
    }
    let mut added = dice.roll() & ADDABLE;
    if dice.percent(50) {
        added &= dice.roll();
    }
    let mark = dice.percent(shares.mark);
    Call { image, mount, node, mark, path, how, added, added_mark: dice.percent(25) }
}
