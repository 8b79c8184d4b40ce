//! Bytes as text, and back: how the command line prints paths, and how manifests and scripts
//! write them.
//!
//! ```
//! use ventolaire::text::Escaped;
//!
//! assert_eq!(Escaped(b"caf\xc3\xa9\xff\n").to_string(), "café\\xff\\n");
//! ```

#[cfg(feature = "std")]
mod words;

#[cfg(feature = "std")]
pub use words::{Quoted, Word, WordError, Words};

use core::fmt::{self, Write};

/// Bytes as text on one line, in the escapes of bash's `$'..'`: of a byte that is no text `\xff`,
/// of a character that acts on a terminal or cannot be seen `\n`, `\x1b` or `\u202e`, of a
/// backslash two.
///
/// ```
/// use ventolaire::text::Escaped;
///
/// assert_eq!(Escaped(b"a\\\x1b[2J").to_string(), r"a\\\x1b[2J");
/// ```
#[derive(Clone, Copy, Debug, PartialEq, Eq, Hash)]
pub struct Escaped<'a>(pub &'a [u8]);

impl fmt::Display for Escaped<'_> {
    fn fmt(&self, f: &mut fmt::Formatter) -> fmt::Result {
        self.0.utf8_chunks().try_for_each(|chunk| {
            chunk.valid().chars().try_for_each(|char| write_char(f, char))?;
            chunk.invalid().iter().try_for_each(|byte| write!(f, "\\x{byte:02x}"))
        })
    }
}

fn write_char(f: &mut fmt::Formatter, char: char) -> fmt::Result {
    let number = u32::from(char);
    match char {
        '\\' => f.write_str("\\\\"),
        '\n' => f.write_str("\\n"),
        '\r' => f.write_str("\\r"),
        '\t' => f.write_str("\\t"),
        _ if !is_hidden(char) => f.write_char(char),
        '\0'..='\x7f' => write!(f, "\\x{number:02x}"),
        '\u{80}'..='\u{ffff}' => write!(f, "\\u{number:04x}"),
        _ => write!(f, "\\U{number:08x}"),
    }
}

/// Whether a character acts on a terminal or on the text around it, or leaves no trace of its
/// own: control characters, separators of lines, what changes the direction of text, and what
/// Unicode calls ignorable by default.
///
/// ```
/// assert!(ventolaire::text::is_hidden('\u{202e}') && !ventolaire::text::is_hidden('é'));
/// ```
pub fn is_hidden(char: char) -> bool {
    char.is_control()
        || matches!(char,
            '\u{ad}' | '\u{34f}' | '\u{61c}' | '\u{115f}'..='\u{1160}' | '\u{17b4}'..='\u{17b5}'
            | '\u{180b}'..='\u{180f}' | '\u{200b}'..='\u{200f}' | '\u{2028}'..='\u{202e}'
            | '\u{2060}'..='\u{206f}' | '\u{3164}' | '\u{fe00}'..='\u{fe0f}' | '\u{feff}'
            | '\u{ffa0}' | '\u{fff0}'..='\u{fffb}' | '\u{1bca0}'..='\u{1bca3}'
            | '\u{1d173}'..='\u{1d17a}' | '\u{e0000}'..='\u{e0fff}')
}

#[cfg(all(test, feature = "std"))]
mod tests {
    use super::*;

    #[test]
    fn bytes_are_made_printable() {
        let text = |bytes: &[u8]| Escaped(bytes).to_string();
        assert_eq!(text("café → 猫 🐈".as_bytes()), "café → 猫 🐈");
        assert_eq!(text(b"a\xffb\x1b[2J\n\r\t\\"), "a\\xffb\\x1b[2J\\n\\r\\t\\\\");
        assert_eq!(text("\0\x7f\u{9b}".as_bytes()), "\\x00\\x7f\\u009b");
        assert_eq!(text("\u{202e}\u{200b}\u{e0041}".as_bytes()), "\\u202e\\u200b\\U000e0041");
    }

    #[test]
    fn what_changes_directions_or_is_invisible_is_hidden() {
        for char in
            "\u{61c}\u{200e}\u{200f}\u{202a}\u{202d}\u{2066}\u{2069}\u{feff}\u{200d}".chars()
        {
            assert!(is_hidden(char), "{}", char.escape_unicode());
        }
        for char in " a~\u{a0}\u{e9}\u{5d0}\u{627}\u{fffd}".chars() {
            assert!(!is_hidden(char), "{}", char.escape_unicode());
        }
    }
}
