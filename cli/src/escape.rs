//! Bytes made fit to be printed.

use std::ffi::OsStr;
use ventolaire::text::Escaped;

/// Bytes as text on one line.
pub fn text(bytes: &[u8]) -> String {
    Escaped(bytes).to_string()
}

/// A file's name, or an argument, to stand in a message.
pub fn name(name: &OsStr) -> String {
    match name.is_empty() {
        true => "''".into(),
        false => text(name.as_encoded_bytes()),
    }
}
