//! The bytes of open_how.

use crate::resolver::{
    BENEATH, IN_ROOT, KNOWN_FLAGS, KNOWN_RESOLVE, NO_MAGICLINKS, NO_SYMLINKS, NO_XDEV, O_CLOEXEC,
    O_DIRECTORY, O_NOFOLLOW, O_PATH,
};
use data::dice::Dice;
use data::how;

/// A subset of bits, each with its share in a hundred.
fn subset(dice: &mut Dice, shares: &[(u64, usize)]) -> u64 {
    let taken = shares.iter().filter(|(_, share)| dice.percent(*share));
    taken.fold(0, |bits, (bit, _)| bits | bit)
}

/// The scopes, as often as they are usual.
pub const SCOPES: [u64; 10] = [0, 0, 0, 0, 0, 0, IN_ROOT, IN_ROOT, IN_ROOT, BENEATH];

/// An open_how that is accepted.
pub fn good_how(dice: &mut Dice) -> Vec<u8> {
    let scope = dice.pick(&SCOPES);
    scoped_how(dice, scope)
}

/// One with this scope.
pub fn scoped_how(dice: &mut Dice, scope: u64) -> Vec<u8> {
    let flags = [(O_DIRECTORY, 12), (O_NOFOLLOW, 25), (O_PATH, 30), (O_CLOEXEC, 10)];
    let flags = subset(dice, &flags);
    let bits = [(NO_XDEV, 10), (NO_MAGICLINKS, 8), (NO_SYMLINKS, 5)];
    let mut bytes = how(flags, subset(dice, &bits) | scope);
    if dice.percent(8) {
        // Every subset alike.
        let bits = dice.roll() & (NO_XDEV | NO_MAGICLINKS | NO_SYMLINKS);
        bytes = how(dice.roll() & KNOWN_FLAGS, bits | scope);
    }
    match dice.below(100) {
        0..=5 => bytes.resize(24 + dice.from(1, 9), 0),
        6 => bytes.resize(dice.pick(&[4095, 4096]), 0),
        _ => {}
    }
    bytes
}

/// An open_how spoiled in one way or two.
pub fn bad_how(dice: &mut Dice) -> Vec<u8> {
    let mut how = good_how(dice);
    for _ in 0..dice.pick(&[1, 1, 1, 2]) {
        let byte = 1u8 << dice.below(8);
        match dice.below(10) {
            0 => how.truncate(dice.below(24)),
            1 => how.resize(dice.pick(&[4097, 4097, 4098, 5000]), 0),
            2 => set_tail(dice, &mut how, byte),
            3 | 4 => unknown_bits(dice, &mut how, 0, KNOWN_FLAGS),
            5 | 6 => unknown_bits(dice, &mut how, 16, KNOWN_RESOLVE),
            7 => set(&mut how, 16, (BENEATH | IN_ROOT) as u8),
            8 => set(&mut how, dice.from(8, 15), byte),
            _ => how = (0..dice.below(31)).map(|_| dice.roll() as u8).collect(),
        }
    }
    how
}

/// Sets bits of a byte, if it is there.
fn set(how: &mut [u8], at: usize, bits: u8) {
    if let Some(place) = how.get_mut(at) {
        *place |= bits;
    }
}

/// Something behind the 24th byte.
fn set_tail(dice: &mut Dice, how: &mut Vec<u8>, byte: u8) {
    if how.len() == 24 {
        how.resize(dice.pick(&[25, 26, 30, 100, 4096, 4097]), 0);
    }
    let tail = how.len().saturating_sub(24);
    let inside = dice.below(tail);
    set(how, 24 + dice.pick(&[0, tail.saturating_sub(1), inside]), byte);
}

fn unknown_bits(dice: &mut Dice, how: &mut [u8], at: usize, known: u64) {
    for _ in 0..dice.pick(&[1, 1, 2, 3]) {
        let bit = dice.below(64);
        if known >> bit & 1 == 0 {
            set(how, at + bit / 8, 1 << (bit % 8));
        }
    }
}
