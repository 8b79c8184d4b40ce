//! What must hold of every text that is read as a manifest, damaged ones above all. No image is
//! worked out here a second time: what is built is compared with itself in other orders, by way of
//! its text and of its table, and its records with the words of the text, which are read by
//! themselves ([`said`]).

#![deny(unsafe_code)]

mod errors;
mod images;
mod refusals;
mod said;
mod subject;
#[cfg(test)]
mod tests;

pub use subject::{Crate, Subject};

use said::Said;
use ventolaire::{Manifest, ManifestError, Problem};

/// Nothing, or what does not hold.
pub type Look = Result<(), String>;

type Built = Result<Vec<u8>, ManifestError>;

/// Panics if something does not hold of a text.
pub fn one(text: &[u8]) {
    if let Err(wrong) = look(&Crate, text) {
        panic!("{wrong}");
    }
}

/// What libFuzzer calls.
///
/// # Safety
///
/// So many bytes can be read there.
#[allow(unsafe_code)]
#[no_mangle]
pub unsafe extern "C" fn LLVMFuzzerTestOneInput(data: *const u8, size: usize) -> i32 {
    // Of no bytes libFuzzer may give no place.
    let text = match size {
        0 => &[],
        _ => unsafe { std::slice::from_raw_parts(data, size) },
    };
    one(text);
    0
}

/// Looks at a text, and at all that is made of it.
pub fn look(subject: &impl Subject, text: &[u8]) -> Look {
    let manifest = match subject.parse(text) {
        Ok(manifest) => manifest,
        Err(error) => {
            errors::look(text, &error)?;
            return orders(subject, text, None);
        }
    };
    let (said, built) = (Said::of(text), subject.build(&manifest));
    printed(subject, &said, &manifest, &built)?;
    orders(subject, text, Some(built.as_ref().ok()))?;
    match &built {
        Ok(image) => images::look(subject, &said, image),
        Err(error) => refusals::look(text, &said, error),
    }
}

/// Nothing if this holds, else the words.
fn hold(holds: bool, words: impl FnOnce() -> String) -> Look {
    match holds {
        true => Ok(()),
        false => Err(words()),
    }
}

/// What is printed says the same, can be read, and prints and builds the same.
fn printed(subject: &impl Subject, said: &Said, manifest: &Manifest, built: &Built) -> Look {
    let text = subject.print(manifest);
    let seen = |char: char| char == '\n' || !is_odd(char);
    hold(text.chars().all(seen), || format!("odd characters are printed: {text:?}"))?;
    let again = Said::of(text.as_bytes());
    hold(again.words().eq(said.words()), || format!("other words are printed:\n{text}"))?;
    let read = subject.parse(text.as_bytes());
    let read = read.map_err(|error| format!("what is printed cannot be read: {error}\n{text}"))?;
    let second = subject.print(&read);
    hold(second == text, || format!("printed otherwise when read again:\n{text}\n{second}"))?;
    same(built, &subject.build(&read)).map_err(|wrong| format!("by way of its text: {wrong}"))
}

/// Characters that words for people, and what is printed, do without.
fn is_odd(char: char) -> bool {
    char.is_control() || matches!(char, '\u{2028}'..='\u{202e}')
}

/// One image, or one problem, wherever in a text.
fn same(one: &Built, other: &Built) -> Look {
    match (one, other) {
        (Ok(one), Ok(other)) => hold(one == other, || "another image".into()),
        (Err(one), Err(other)) => {
            let is_same = one.path == other.path && placeless(one) == placeless(other);
            hold(is_same, || format!("refused by {one}, then by {other}"))
        }
        (Ok(_), Err(error)) => Err(format!("built, then refused by {error}")),
        (Err(error), Ok(_)) => Err(format!("refused by {error}, then built")),
    }
}

fn placeless(error: &ManifestError) -> Problem {
    match &error.problem {
        Problem::Twice(_) => Problem::Twice(None),
        Problem::RootTwice(_) => Problem::RootTwice(None),
        problem => problem.clone(),
    }
}

/// In other orders the lines are read or not, and build the same image or none.
fn orders(subject: &impl Subject, text: &[u8], expected: Option<Option<&Vec<u8>>>) -> Look {
    let mut lines: Vec<&[u8]> = text.split(|byte| *byte == b'\n').collect();
    let places: usize = text.iter().map(|byte| usize::from(*byte)).sum();
    let by = places % lines.len();
    lines.rotate_left(by);
    let rotated = lines.join(&b'\n');
    lines.rotate_right(by);
    lines.reverse();
    for (order, text) in [("reversed", lines.join(&b'\n')), ("rotated", rotated)] {
        let built = subject.parse(&text).ok().map(|manifest| subject.build(&manifest));
        let image = built.as_ref().map(|built| built.as_ref().ok());
        hold(image == expected, || {
            let ends = [expected, image].map(end);
            format!("{}; with its lines {order}, {}", ends[0], ends[1])
        })?;
    }
    Ok(())
}

fn end(image: Option<Option<&Vec<u8>>>) -> String {
    match image {
        None => "not read".into(),
        Some(None) => "refused".into(),
        Some(Some(image)) => format!("built to {}", image.escape_ascii()),
    }
}
