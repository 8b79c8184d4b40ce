//! What must hold where a text cannot be read.

use crate::{hold, is_odd, Look};
use ventolaire::{ManifestError, Position, Problem};

pub fn look(text: &[u8], error: &ManifestError) -> Look {
    words(error)?;
    let is_unexpected = matches!(error.problem, Problem::Unexpected { .. });
    hold(is_unexpected && error.path.is_empty(), || format!("no error of a text: {error:?}"))?;
    let Some(Position { line, column, .. }) = error.position else {
        return Err(format!("an error without a position: {error}"));
    };
    let mut lines = text.split(|byte| *byte == b'\n');
    let at = (line as usize).checked_sub(1).and_then(|line| lines.nth(line));
    let at = at.ok_or_else(|| format!("a line that is not there: {error}"))?;
    let chars = characters(at.strip_suffix(b"\r").unwrap_or(at));
    let column = (column as usize).checked_sub(1).filter(|column| *column <= chars.len());
    let column = column.ok_or_else(|| format!("a column that is not there: {error}"))?;
    hold(is_begin(&chars, column), || format!("a column where nothing begins: {error}"))
}

/// What an error says is one line, and leaves a terminal alone.
pub fn words(error: &ManifestError) -> Look {
    let words = error.to_string();
    let is_plain = !words.is_empty() && !words.contains(is_odd);
    hold(is_plain, || format!("odd words: {words:?}"))
}

/// The characters, and each byte that is none.
pub fn characters(line: &[u8]) -> Vec<&[u8]> {
    let mut chars = Vec::new();
    let mut rest = line;
    while !rest.is_empty() {
        let is_char =
            |len: &usize| rest.get(..*len).is_some_and(|char| str::from_utf8(char).is_ok());
        let (char, behind) = rest.split_at((1..=4).find(is_char).unwrap_or(1));
        chars.push(char);
        rest = behind;
    }
    chars
}

/// Whether a word, a quote, an escape or the line's end is there.
fn is_begin(chars: &[&[u8]], at: usize) -> bool {
    let is_blank = |char: &[u8]| matches!(char, b" " | b"\t");
    let is_first = at == 0 || is_blank(chars[at - 1]);
    match chars.get(at).copied() {
        None => true,
        Some(b"\\" | b"'" | b"\"") => true,
        Some(char) => is_first && !is_blank(char),
    }
}
