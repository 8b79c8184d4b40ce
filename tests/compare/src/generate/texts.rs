//! The texts of a tree, laid otherwise.

use crate::builder::Parts;
use crate::resolver::LINK;
use data::dice::Dice;
use data::fields::{set, ENTRY, NODE};
use std::collections::HashMap;

/// A name or a body, and the place of its offset in the records.
struct Piece<'a> {
    bytes: &'a [u8],
    is_name: bool,
    told_at: usize,
}

/// The same tree: its names and bodies in another order, shared or not, overlapping or with
/// gaps between them. What lies outside the text stays where it is.
pub fn relaid(dice: &mut Dice, parts: &Parts) -> Parts {
    let tree = parts.table();
    let names = tree.entries.iter().enumerate().filter_map(|(number, entry)| {
        let bytes = tree.name(entry)?;
        Some(Piece { bytes, is_name: true, told_at: ENTRY * number })
    });
    let links = tree.nodes.iter().enumerate().filter(|(_, node)| node.kind == LINK);
    let bodies = links.filter_map(|(number, link)| {
        let bytes = tree.text_part(link.first, link.count)?;
        Some(Piece { bytes, is_name: false, told_at: NODE * number + 4 })
    });
    let mut pieces: Vec<Piece> = names.chain(bodies).collect();
    for at in (1..pieces.len()).rev() {
        pieces.swap(at, dice.below(at + 1));
    }
    let mut laid = parts.clone();
    let mut area = Area::new(dice);
    for Piece { bytes, is_name, told_at } in pieces {
        let offset = area.place(dice, bytes);
        let records = if is_name { &mut laid.entries } else { &mut laid.nodes };
        set(records, told_at, 4, offset);
    }
    area.text.extend(rubbish(dice));
    laid.text = area.text;
    laid
}

/// Bytes that no record uses; seldom so many that offsets behind them take three bytes.
fn rubbish(dice: &mut Dice) -> Vec<u8> {
    let length = if dice.one_in(60) { dice.from(65_530, 66_000) } else { dice.below(9) };
    vec![dice.pick(b"\0/.ab"); length]
}

/// The text as it is laid.
struct Area<'a> {
    text: Vec<u8>,
    shares: bool,
    overlaps: bool,
    gaps: bool,
    known: HashMap<&'a [u8], usize>,
}

impl<'a> Area<'a> {
    fn new(dice: &mut Dice) -> Area<'a> {
        let text = if dice.percent(50) { rubbish(dice) } else { Vec::new() };
        let [shares, overlaps, gaps] = [50, 50, 40].map(|share| dice.percent(share));
        Area { text, shares, overlaps, gaps, known: HashMap::new() }
    }

    /// Where a text stands, laid there if it is not yet.
    fn place(&mut self, dice: &mut Dice, bytes: &'a [u8]) -> usize {
        if let Some(at) = self.found(bytes) {
            return at;
        }
        if self.gaps && dice.percent(30) {
            self.text.extend((0..dice.from(1, 5)).map(|_| dice.pick(b"\0/.ab")));
        }
        // As much of its beginning as the text ends with.
        let most = if self.overlaps { bytes.len().min(16) } else { 0 };
        let shared = (0..=most).rev().find(|length| self.text.ends_with(&bytes[..*length]));
        let shared = shared.unwrap_or(0);
        let at = self.text.len() - shared;
        self.text.extend(&bytes[shared..]);
        self.known.insert(bytes, at);
        at
    }

    fn found(&self, bytes: &[u8]) -> Option<usize> {
        if !self.shares || bytes.is_empty() {
            return None;
        }
        if let Some(at) = self.known.get(bytes) {
            return Some(*at);
        }
        // The search inside other texts is slow, so only in short ones.
        let text = if self.text.len() <= 512 { &self.text[..] } else { &[] };
        text.windows(bytes.len()).position(|window| window == bytes)
    }
}
