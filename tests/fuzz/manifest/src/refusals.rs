//! What must hold where no image is built of a manifest that was read.

use crate::errors::{self, characters};
use crate::said::{Line, Said};
use crate::{hold, Look};
use ventolaire::{ManifestError, Position, Problem, Record};

pub fn look(text: &[u8], said: &Said, error: &ManifestError) -> Look {
    errors::words(error)?;
    placed(text, said, error)?;
    hold(is_so(said, error), || format!("not so: {error}"))
}

/// The line that is named speaks of the object, and its first word is where the error is said to
/// be. What is not described has no line: the main tree's top, and mount 0.
fn placed(text: &[u8], said: &Said, error: &ManifestError) -> Look {
    let path = plain(&error.path);
    let Some(position) = error.position else {
        return hold(path.is_empty(), || format!("without a line: {error}"));
    };
    let line = said.lines.iter().find(|line| line.number == position.line);
    let is_about = line.is_some_and(|line| line.words.iter().any(|word| word == path));
    hold(is_about, || format!("in another line: {error}"))?;
    hold(is_first_word(text, position), || format!("in another column: {error}"))
}

/// A path that is told, as paths are kept here: that of the main tree's top is empty.
fn plain(path: &[u8]) -> &[u8] {
    if path == b"/" {
        b""
    } else {
        path
    }
}

fn is_first_word(text: &[u8], position: Position) -> bool {
    let line = text.split(|byte| *byte == b'\n').nth(position.line as usize - 1);
    let chars = characters(line.unwrap_or_default());
    let blanks = chars.iter().take_while(|char| matches!(char, [b' ' | b'\t'])).count();
    position.column as usize == blanks + 1
}

/// Whether the text has the problem.
fn is_so(said: &Said, error: &ManifestError) -> bool {
    let kind = |path: &[u8]| said.about(plain(path)).map(Line::kind);
    match &error.problem {
        Problem::Twice(Some(first)) | Problem::RootTwice(Some(first)) => {
            is_twice(said, error, *first)
        }
        Problem::NoDirectory(path) | Problem::NoObject(path) => kind(path).is_none(),
        Problem::NotDirectory(path) => !matches!(kind(path), None | Some(b"dir" | b"hard")),
        Problem::SecondName(path) => kind(path) == Some(b"hard"),
        Problem::Nameless => {
            let path = plain(&error.path);
            said.of_kind("hard").any(|line| line.word(1) == path) && !path.contains(&b'/')
        }
        Problem::Parents => {
            let is_named = error.path.contains(&b'/');
            is_named && said.about(&error.path).is_some_and(|line| line.behind("in").is_some())
        }
        Problem::NoMount(name) => mounts(said, name) == 0,
        Problem::MountTwice(name) => mounts(said, name) > 1,
        Problem::Broken { .. } => is_broken(said, error),
        // The others are of no text.
        _ => false,
    }
}

/// Two lines of one path, or two that say what mount 0 shows, and are told as such.
fn is_twice(said: &Said, error: &ManifestError, first: Position) -> bool {
    let at = |position: Position| said.lines.iter().find(|line| line.number == position.line);
    let (Some(one), Some(other)) = (at(first), error.position.and_then(at)) else { return false };
    let are_roots = one.kind() == b"root" && other.kind() == b"root";
    let are_told_roots = matches!(error.problem, Problem::RootTwice(_));
    let is_one_path = are_roots || one.word(1) == other.word(1);
    one.number != other.number && are_roots == are_told_roots && is_one_path
}

fn mounts(said: &Said, name: &str) -> usize {
    said.of_kind("mount").filter(|line| line.behind("as") == Some(name.as_bytes())).count()
}

/// Whether rule, clause and record are of one mind, and the record is one of so many.
fn is_broken(said: &Said, error: &ManifestError) -> bool {
    let Problem::Broken { broken, record, clause, reason, .. } = &error.problem else {
        return false;
    };
    let (expected, records) = match broken.rule {
        1 | 3 => (None, 1),
        4 | 7 => (Some(Record::Node(broken.record)), said.nodes()),
        5 => (Some(Record::Entry(broken.record)), said.names().count()),
        6 => (Some(Record::Mount(broken.record)), said.of_kind("mount").count() + 1),
        _ => return false,
    };
    let is_clause = clause.starts_with(&format!("4.{}", broken.rule));
    let is_record = *record == expected && (broken.record as usize) < records;
    is_clause && is_record && !reason.is_empty() && !is_numbered(said, reason)
}

/// Whether a reason speaks of a node by its number, and so do no words of the text.
fn is_numbered(said: &Said, reason: &str) -> bool {
    let is_said = |noun: &str| {
        let mut words = said.words().flatten();
        words.any(|word| word.windows(noun.len()).any(|part| part == noun.as_bytes()))
    };
    ["node ", "directory "].into_iter().any(|noun| {
        let mut behind = reason.split(noun).skip(1);
        behind.any(|rest| rest.starts_with(|char: char| char.is_ascii_digit())) && !is_said(noun)
    })
}
