//! Pairs: a table, a handle in it, a second table that differs outside the handle's part alone or,
//! a quarter of them, inside it too; and a call that is confined to the part.

use super::embedded::embedded;
use super::handles::good_handle;
use super::hows::{bad_how, scoped_how};
use super::inside::change_inside;
use super::outside::{change_outside, Kept};
use super::paths::{bad_path, good_path, Origin};
use super::scripts::script;
use super::tables::table;
use super::texts::relaid;
use crate::builder::Parts;
use crate::case::Call;
use crate::pair::{confines, way_to, Pair};
use crate::reach::reach;
use crate::resolver::{
    accept, resolve_field, Place, Table, BENEATH, IN_ROOT, LINK, MAGIC, NO_MAGICLINKS, NO_SYMLINKS,
    NO_XDEV,
};
use crate::tree;
use data::dice::Dice;
use data::image::Tree;

/// So many pairs with one first table.
pub fn pairs(dice: &mut Dice, many: usize) -> Vec<Pair> {
    let (image, inner) = first_image(dice);
    let Ok(table) = accept(&image) else { return Vec::new() };
    (0..many)
        .map(|_| {
            let handle = match inner {
                Some(inner) if dice.percent(60) => inner,
                _ => handle(dice, &table),
            };
            one_pair(dice, &image, &table, handle)
        })
        .collect()
}

/// An accepted table, mostly one within another, and then the place where that begins. Large ones
/// would take time and show nothing more.
fn first_image(dice: &mut Dice) -> (Vec<u8>, Option<Place>) {
    loop {
        let image = table(dice);
        let Ok(table) = accept(&image) else { continue };
        if table.nodes.len() > 400 || table.mounts.len() > 60 {
            continue;
        }
        if dice.percent(20) {
            return (image, None);
        }
        let (tree, root) = embedded(dice, &tree::of(&table));
        let (image, inner) = (laid(dice, &tree), Place { mount: 0, node: root as u64 });
        if accept(&image).is_ok_and(|table| table.handle_errno(inner).is_none()) {
            return (image, Some(inner));
        }
    }
}

fn one_pair(dice: &mut Dice, image: &[u8], table: &Table, handle: Place) -> Pair {
    let kept = Kept::of(table, handle);
    let (other, is_common) = second_image(dice, image, table, &kept);
    let mut call = call(dice, image, table, handle);
    if !is_common {
        aim(dice, &mut call, &other);
    }
    let steps = script(dice, table, handle);
    Pair { call, other, steps, is_common }
}

/// A good handle, mostly one with much in its part and something outside.
fn handle(dice: &mut Dice, table: &Table) -> Place {
    if dice.percent(6) {
        return table.top();
    }
    let many = dice.pick(&[1, 6, 6]);
    let handles: Vec<Place> = (0..many).map(|_| good_handle(dice, table)).collect();
    let best = handles.into_iter().max_by_key(|handle| worth(table, *handle));
    best.unwrap_or(table.top())
}

/// How much there is to be seen of a handle's part.
fn worth(table: &Table, handle: Place) -> usize {
    let places = reach(table, handle);
    let has_kind = |kind| {
        let is_of_kind = |place: &Place| table.node(place.node).is_some_and(|n| n.kind == kind);
        usize::from(places.iter().any(is_of_kind))
    };
    let enters = places.iter().any(|place| place.mount != handle.mount);
    let is_below = handle != table.top();
    let is_open = way_to(table, handle).is_some();
    places.len().min(5)
        + 3 * (has_kind(LINK) + has_kind(MAGIC) + usize::from(enters))
        + 5 * (usize::from(is_below) + usize::from(is_open))
}

/// A second image, and whether the part is in common.
fn second_image(dice: &mut Dice, image: &[u8], table: &Table, kept: &Kept) -> (Vec<u8>, bool) {
    let tree = tree::of(table);
    let is_good = |other: &Vec<u8>| {
        let is_good = |table: Table| table.handle_errno(kept.handle).is_none();
        other != image && accept(other).is_ok_and(is_good)
    };
    let mut outside = None;
    for tries in 0..8 {
        let other = change_outside(dice, &tree, kept, tries);
        outside = Some(laid(dice, &other)).filter(is_good).map(|image| (other, image));
        if outside.is_some() {
            break;
        }
    }
    if dice.percent(25) {
        let changed = outside.as_ref().map(|(other, _)| other).filter(|_| dice.percent(50));
        for _ in 0..12 {
            let changed = change_inside(dice, changed.unwrap_or(&tree), kept);
            if let Some(image) = changed.map(|tree| laid(dice, &tree)).filter(is_good) {
                return (image, false);
            }
        }
    }
    let other = outside.map(|(_, image)| image).unwrap_or(image.to_vec());
    (other, true)
}

/// The tree's image, with its texts laid in one way or another.
fn laid(dice: &mut Dice, tree: &Tree) -> Vec<u8> {
    match dice.below(4) {
        0 => tree.image(),
        1 => tree.shared_image(),
        _ => relaid(dice, &Parts::of(&tree.image())).as_they_are(),
    }
}

/// The restrictions that confine a call, each as often as it stands here: bits of resolve, and
/// the mark.
const CONFINED: [(u64, bool); 8] = [
    (BENEATH, false),
    (BENEATH, false),
    (IN_ROOT, false),
    (IN_ROOT, false),
    (IN_ROOT, false),
    (0, true),
    (BENEATH, true),
    (IN_ROOT, true),
];

/// An open_how with this scope, now and then with several restrictions more.
pub fn restricted_how(dice: &mut Dice, scope: u64) -> Vec<u8> {
    let mut how = scoped_how(dice, scope);
    if dice.percent(15) {
        // They lie in the lowest byte.
        how[16] |= (dice.roll() & (NO_XDEV | NO_MAGICLINKS | NO_SYMLINKS)) as u8;
    }
    how
}

/// An open_how and the mark, one of which confines.
fn confined_how(dice: &mut Dice) -> (Vec<u8>, bool) {
    let (scope, mark) = *dice.choose(&CONFINED).unwrap_or(&(BENEATH, false));
    (restricted_how(dice, scope), mark)
}

fn call(dice: &mut Dice, image: &[u8], table: &Table, handle: Place) -> Call {
    let (mut how, mut mark) = confined_how(dice);
    if dice.percent(3) {
        how = bad_how(dice);
        mark = mark || !confines(mark, &how);
    }
    let mut path = confined_path(dice, table, handle, &how);
    if dice.percent(2) {
        path = bad_path(dice, path);
    }
    let Place { mount, node } = handle;
    let (image, added, added_mark) = (image.to_vec(), 0, false);
    Call { image, mount, node, mark, path, how, added, added_mark }
}

/// A path, mostly grown within the part.
pub fn confined_path(dice: &mut Dice, table: &Table, handle: Place, how: &[u8]) -> Vec<u8> {
    let in_root = resolve_field(how).unwrap_or(0) & IN_ROOT;
    let is_absolute = dice.percent(if in_root != 0 { 25 } else { 5 });
    let resolve = match in_root {
        // An absolute one is refused whatever it is; another sometimes leaves and goes on.
        0 if is_absolute || dice.percent(20) => 0,
        0 => BENEATH,
        in_root => in_root,
    };
    good_path(dice, table, Origin { handle, resolve, is_absolute })
}

/// Mostly a path on which the two tables differ, if one is soon found.
fn aim(dice: &mut Dice, call: &mut Call, other: &[u8]) {
    let (Ok(first), Ok(second)) = (accept(&call.image), accept(other)) else { return };
    let handle = Place { mount: call.mount, node: call.node };
    for _ in 0..dice.pick(&[0, 4, 8, 16]) {
        let [one, two] = [&first, &second].map(|table| call.answer_over(Some(table)).0);
        if one != two {
            return;
        }
        let table = if dice.percent(50) { &first } else { &second };
        call.path = confined_path(dice, table, handle, &call.how);
    }
}
