//! The manifest of a table, built again: the same tree but for the numbers of nodes and mounts.

mod pairs;
#[cfg(test)]
mod tests;

use crate::builder::{written_length, LONGEST_IMAGE};
use crate::case::{same, Alike, Call, Case, Difference};
use crate::generate::call;
use crate::resolver::{accept, check, Answer, Place, Table};
use crate::subject::Subject;
use data::dice::Dice;
use pairs::Pairs;

/// What became of a table, for the statistics.
pub enum Told {
    /// It is refused itself.
    NotAsked,
    /// It has no manifest, by rule 1: text that was shared no longer would be.
    TooLong,
    Rewritten,
}

/// What a subject makes of an image by way of its manifest: another image, or the rule that this
/// would break.
pub type Rewritten = Result<Vec<u8>, u64>;

/// Calls that both images are asked.
const CALLS: usize = 3;

pub fn compare(image: &[u8], subject: &mut dyn Subject) -> Result<Alike, Difference> {
    let Ok(table) = accept(image) else { return Ok(Alike::Manifest(Told::NotAsked)) };
    let length = written_length(&table);
    let other = match subject.rewritten(image) {
        Ok(other) => other,
        Err(rule) => {
            // Each name and each body has a place of its own: this alone can be too much.
            let expected = u64::from(length > LONGEST_IMAGE);
            same("a manifest refused, by the rule", &[expected], vec![rule])?;
            return Ok(Alike::Manifest(Told::TooLong));
        }
    };
    same("the length of a manifest's image", &[length], vec![other.len() as u64])?;
    same("the check of a manifest's image", &[0, 0], check(&other).to_vec())?;
    let is_same = subject.rewritten(&other).as_ref() == Ok(&other);
    same("a manifest's image gives itself again", &[1], vec![u64::from(is_same)])?;
    if let Ok(read) = accept(&other) {
        let pairs = Pairs::of(&table, &read)?;
        answers_alike(image, (&table, &read), &pairs)?;
    }
    Ok(Alike::Manifest(Told::Rewritten))
}

/// Both tables answer calls alike, up to the numbers.
fn answers_alike(
    image: &[u8],
    (table, other): (&Table, &Table),
    pairs: &Pairs,
) -> Result<(), Difference> {
    let seed = image.iter().fold(0, |sum: u64, byte| sum.rotate_left(7) ^ u64::from(*byte));
    let mut dice = Dice::of(seed);
    for _ in 0..CALLS {
        let first = Call { image: image.to_vec(), ..call(&mut dice, image, Some(table)) };
        let place = pairs.place(Place { mount: first.mount, node: first.node });
        let second = Call { mount: place.mount, node: place.node, ..first.clone() };
        let expected = match first.answer_over(Some(table)).0 {
            Answer::Found { place, components, links } => {
                Answer::Found { place: pairs.place(place), components, links }
            }
            refused => refused,
        };
        let got = second.answer_over(Some(other)).0.numbers().to_vec();
        same("a call on the manifest's image", &expected.numbers(), got)
            .map_err(|difference| difference.of(&Case::Call(first)))?;
    }
    Ok(())
}
