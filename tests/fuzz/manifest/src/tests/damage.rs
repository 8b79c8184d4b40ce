//! Texts damaged: in bytes, in lines, in words.

use data::dice::Dice;

/// One to three things done to a text. Lines of other texts may come into it.
pub fn damaged(text: &[u8], others: &[&[u8]], dice: &mut Dice) -> Vec<u8> {
    let times = dice.from(1, 3);
    (0..times).fold(text.to_vec(), |text, _| match dice.below(9) {
        0 => flipped(text, dice),
        1 => typed(text, dice),
        2 => removed(text, dice),
        3 => doubled(text, dice),
        4 => text[..dice.below(text.len() + 1)].to_vec(),
        5 => in_lines(text, |lines| {
            let (one, other) = (dice.below(lines.len()), dice.below(lines.len()));
            lines.swap(one, other);
        }),
        6 => in_lines(text, |lines| {
            let (line, at) = (dice.pick(lines), dice.below(lines.len()));
            lines.insert(at, line);
        }),
        7 => {
            let other = lines(dice.pick(others));
            in_lines(text, |lines| lines.insert(dice.below(lines.len()), dice.pick(&other)))
        }
        _ => in_lines(text, |lines| words_exchanged(lines, dice)),
    })
}

fn flipped(mut text: Vec<u8>, dice: &mut Dice) -> Vec<u8> {
    let at = dice.below(text.len());
    if let Some(byte) = text.get_mut(at) {
        *byte ^= 1 << dice.below(8);
    }
    text
}

/// A byte that means something is put in.
fn typed(mut text: Vec<u8>, dice: &mut Dice) -> Vec<u8> {
    let at = dice.below(text.len() + 1);
    text.insert(at, dice.pick(b" \t\r\n/:.#'\"\\xun0fab\0\x1b\x80\xc3\xff"));
    text
}

fn removed(mut text: Vec<u8>, dice: &mut Dice) -> Vec<u8> {
    let from = dice.below(text.len() + 1);
    let to = (from + dice.from(1, 6)).min(text.len());
    text.drain(from..to);
    text
}

fn doubled(mut text: Vec<u8>, dice: &mut Dice) -> Vec<u8> {
    let from = dice.below(text.len() + 1);
    let to = (from + dice.from(1, 6)).min(text.len());
    let part = text[from..to].to_vec();
    text.splice(to..to, part);
    text
}

fn lines(text: &[u8]) -> Vec<Vec<u8>> {
    text.split(|byte| *byte == b'\n').map(<[u8]>::to_vec).collect()
}

fn in_lines(text: Vec<u8>, change: impl FnOnce(&mut Vec<Vec<u8>>)) -> Vec<u8> {
    let mut lines = lines(&text);
    change(&mut lines);
    lines.join(&b'\n')
}

/// A word of one line is put for one of another, and that in its place.
fn words_exchanged(lines: &mut [Vec<u8>], dice: &mut Dice) {
    let at = [dice.below(lines.len()), dice.below(lines.len())];
    let mut words = at.map(|at| -> Vec<Vec<u8>> {
        lines[at].split(|byte| *byte == b' ').map(<[u8]>::to_vec).collect()
    });
    let [one, other] = &mut words;
    let (first, second) = (dice.below(one.len()), dice.below(other.len()));
    std::mem::swap(&mut one[first], &mut other[second]);
    at.into_iter().zip(words).for_each(|(at, words)| lines[at] = words.join(&b' '));
}
