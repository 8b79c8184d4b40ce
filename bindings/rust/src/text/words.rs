//! Lines as words, in the way of a shell.

use super::Escaped;
use std::error::Error;
use std::fmt;

/// The words of a line, between blanks. Between quotes, of either kind, blanks are part of a
/// word. Everywhere a backslash begins an escape: those of [`Escaped`], and a blank, a quote, a
/// `#` or a backslash as itself. So what is printed can be read again.
///
/// ```
/// use ventolaire::text::{Word, Words};
///
/// let words: Result<Vec<Word>, _> = Words::of(br"link '/a b' \xff").collect();
/// let words: Vec<(usize, Vec<u8>)> = words?.into_iter().map(|word| (word.at, word.bytes)).collect();
/// assert_eq!(words, [(0, b"link".into()), (5, b"/a b".into()), (12, vec![0xff])]);
/// # Ok::<(), ventolaire::text::WordError>(())
/// ```
#[derive(Clone, Debug)]
#[must_use = "iterators do nothing unless they are asked"]
pub struct Words<'a> {
    line: &'a [u8],
    /// How many bytes were read.
    at: usize,
}

/// A word, and where in its line it begins.
#[derive(Clone, Debug, PartialEq, Eq, Hash)]
#[non_exhaustive]
pub struct Word {
    /// The byte at which it begins.
    pub at: usize,
    /// What it says: without quotes, escapes read.
    pub bytes: Vec<u8>,
}

/// What in a line is no word, and where.
///
/// ```
/// use ventolaire::text::Words;
///
/// let error = Words::of(b"dir '/lab").nth(1).unwrap().unwrap_err();
/// assert_eq!((error.at, error.to_string()), (4, "a quote (') is not closed".into()));
/// ```
#[derive(Clone, Debug, PartialEq, Eq, Hash)]
#[non_exhaustive]
pub struct WordError {
    /// The byte at which it begins: a backslash or a quote.
    pub at: usize,
    what: String,
}

impl fmt::Display for WordError {
    fn fmt(&self, f: &mut fmt::Formatter) -> fmt::Result {
        f.write_str(&self.what)
    }
}

impl Error for WordError {}

impl<'a> Words<'a> {
    /// The words of these bytes, which are one line.
    pub fn of(line: &'a [u8]) -> Self {
        Words { line, at: 0 }
    }

    /// What begins at the next word.
    ///
    /// ```
    /// let mut words = ventolaire::text::Words::of(b"dir  /lab # the laboratory");
    /// words.nth(1);
    /// assert_eq!(words.rest(), b"# the laboratory");
    /// ```
    pub fn rest(&mut self) -> &'a [u8] {
        let rest = self.line.get(self.at..).unwrap_or_default();
        let blanks = rest.iter().take_while(|byte| matches!(byte, b' ' | b'\t')).count();
        self.at += blanks;
        &rest[blanks..]
    }

    /// Where the next word begins, or the line ends.
    pub fn at(&mut self) -> usize {
        self.rest();
        self.at
    }

    fn word(&mut self) -> Result<Word, WordError> {
        let (at, mut bytes) = (self.at, Vec::new());
        // The quote that is open, and where it was.
        let mut quote: Option<(u8, usize)> = None;
        while let Some(&byte) = self.line.get(self.at) {
            self.at += 1;
            match (byte, quote) {
                (b'\\', _) => self.escape(&mut bytes)?,
                (b' ' | b'\t', None) => return Ok(Word { at, bytes }),
                (b'\'' | b'"', None) => quote = Some((byte, self.at - 1)),
                (byte, Some((open, _))) if byte == open => quote = None,
                (byte, _) => bytes.push(byte),
            }
        }
        match quote {
            None => Ok(Word { at, bytes }),
            Some((open, at)) => {
                let what = format!("a quote ({}) is not closed", char::from(open));
                Err(WordError { at, what })
            }
        }
    }

    /// Reads what stands behind a backslash into a word.
    fn escape(&mut self, word: &mut Vec<u8>) -> Result<(), WordError> {
        let text = &self.line[self.at..];
        let wrong = |what: String| WordError { at: self.at - 1, what };
        let (letter, behind) = text
            .split_first()
            .ok_or_else(|| wrong("a backslash stands at the line's end".into()))?;
        let digits = match letter {
            b'x' => 2,
            b'u' => 4,
            b'U' => 8,
            _ => 0,
        };
        match letter {
            b'n' => word.push(b'\n'),
            b'r' => word.push(b'\r'),
            b't' => word.push(b'\t'),
            b'\\' | b'\'' | b'"' | b' ' | b'\t' | b'#' => word.push(*letter),
            b'x' | b'u' | b'U' => {
                let number = behind.get(..digits).and_then(hexadecimal);
                let read = number.and_then(|number| put(*letter == b'x', number, word));
                read.ok_or_else(|| {
                    let shown = Escaped(&behind[..digits.min(behind.len())]);
                    wrong(format!("\\{}{shown} is no escape", char::from(*letter)))
                })?;
            }
            _ => return Err(wrong(format!("\\{} is no escape", Escaped(&text[..1])))),
        }
        self.at += 1 + digits;
        Ok(())
    }
}

/// Ends at the first error.
impl Iterator for Words<'_> {
    type Item = Result<Word, WordError>;

    fn next(&mut self) -> Option<Self::Item> {
        if self.rest().is_empty() {
            return None;
        }
        let word = self.word();
        if word.is_err() {
            self.at = self.line.len();
        }
        Some(word)
    }
}

fn hexadecimal(digits: &[u8]) -> Option<u32> {
    let digit = |byte: &u8| char::from(*byte).to_digit(16);
    digits.iter().try_fold(0, |number, byte| Some(number << 4 | digit(byte)?))
}

/// Puts a byte, or a character, behind a word.
fn put(is_byte: bool, number: u32, word: &mut Vec<u8>) -> Option<()> {
    match is_byte {
        true => word.push(u8::try_from(number).ok()?),
        false => {
            let char = char::from_u32(number)?;
            word.extend(char.encode_utf8(&mut [0; 4]).as_bytes());
        }
    }
    Some(())
}

/// Bytes as one word, in quotes where they are needed.
///
/// ```
/// use ventolaire::text::Quoted;
///
/// assert_eq!(Quoted(b"/lab/a b\n").to_string(), r"'/lab/a b\n'");
/// assert_eq!(Quoted(b"/lab").to_string(), "/lab");
/// ```
#[derive(Clone, Copy, Debug, PartialEq, Eq, Hash)]
pub struct Quoted<'a>(pub &'a [u8]);

impl fmt::Display for Quoted<'_> {
    fn fmt(&self, f: &mut fmt::Formatter) -> fmt::Result {
        let is_plain = |byte: &u8| !matches!(byte, b' ' | b'\'' | b'"');
        match self.0 {
            [] | [b'#', ..] => {}
            bytes if bytes.iter().all(is_plain) => return write!(f, "{}", Escaped(bytes)),
            _ => {}
        }
        write!(f, "'{}'", Escaped(self.0).to_string().replace('\'', "\\'"))
    }
}

#[cfg(test)]
mod tests {
    use super::*;

    fn words(line: &[u8]) -> Vec<Vec<u8>> {
        Words::of(line).map(|word| word.unwrap().bytes).collect()
    }

    #[test]
    fn blanks_part_words_and_quotes_hold_them() {
        let rows: &[(&[u8], &[&[u8]])] = &[
            (b"", &[]),
            (b" \t ", &[]),
            (b"open 0  lab\t", &[b"open", b"0", b"lab"]),
            (b"'a b' \"c\td\"", &[b"a b", b"c\td"]),
            (b"'it is \"so\"' \"it's\"", &[b"it is \"so\"", b"it's"]),
            (b"\"\" '' a''b", &[b"", b"", b"ab"]),
            (b"a\\ b \\'\\\" '\\'' \\#", &[b"a b", b"'\"", b"'", b"#"]),
            (b"# a", &[b"#", b"a"]),
            (b"\xff\0\r", &[b"\xff\0\r"]),
        ];
        for (line, expected) in rows {
            assert_eq!(words(line), *expected, "{}", line.escape_ascii());
        }
    }

    #[test]
    fn escapes_are_read() {
        assert_eq!(words(b"\\n\\r\\t\\\\"), [b"\n\r\t\\"]);
        assert_eq!(words(b"'\\xff\\x00' \\xC3\\xa9"), [&b"\xff\0"[..], "é".as_bytes()]);
        assert_eq!(words(b"\\u202e\\U000e0041"), ["\u{202e}\u{e0041}".as_bytes()]);
        // Just so many digits.
        assert_eq!(words(b"\\x410"), [b"A0"]);
    }

    #[test]
    fn what_cannot_be_read_is_told() {
        for (line, at, wrong) in [
            ("a 'b", 2, "a quote (') is not closed"),
            ("c\"a' b", 1, "a quote (\") is not closed"),
            ("a\\", 1, "a backslash stands at the line's end"),
            ("'\\q'", 1, "\\q is no escape"),
            ("\\\u{e9}", 0, "\\\\xc3 is no escape"),
            ("\\xf", 0, "\\xf is no escape"),
            ("\\xfg", 0, "\\xfg is no escape"),
            ("\\x+f", 0, "\\x+f is no escape"),
            (" \\ud800", 1, "\\ud800 is no escape"),
            ("\\U00110000", 0, "\\U00110000 is no escape"),
            ("\\u12", 0, "\\u12 is no escape"),
        ] {
            let mut words = Words::of(line.as_bytes());
            let error = words.find_map(Result::err).unwrap();
            assert_eq!((error.at, error.to_string()), (at, wrong.into()), "{line}");
            assert!(words.next().is_none(), "{line}");
        }
    }

    /// A printed word is read as the bytes printed.
    #[test]
    fn what_is_printed_can_be_read() {
        let mut state = 1_u32;
        let mut random = |below: u32| {
            state = state.wrapping_mul(1_664_525).wrapping_add(1_013_904_223);
            (state >> 8) % below
        };
        for _ in 0..5_000 {
            let mut bytes: Vec<u8> = (0..random(9)).map(|_| random(256) as u8).collect();
            for _ in 0..random(4) {
                let odd = [' ', '\'', '"', '\\', '\n', '#', '\u{202e}', '\u{e0041}', 'é'];
                bytes.extend(odd[random(9) as usize].to_string().bytes());
            }
            let printed = Quoted(&bytes).to_string();
            assert_eq!(words(printed.as_bytes()), [&bytes[..]], "{}", bytes.escape_ascii());
        }
    }
}
