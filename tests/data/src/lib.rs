//! What the tests of several packages share: the builder of table images, the
//! fields of an image, calls on descriptors, the list of worked cases, and dice for
//! random inputs.
//!
//! Nothing here checks a table or knows an answer: the builder writes what it is
//! told, broken tables too, and the answers stand in the list, worked out by hand.

pub mod dice;
pub mod fields;
pub mod image;
pub mod sequence;
pub mod worked;

/// The image of the bench tree (RULES 13), as tests/cases writes it.
pub const BENCH_TREE: &[u8] = include_bytes!("../../../examples/bench_tree.toc");

/// An open_how of 24 bytes.
pub fn how(flags: u64, resolve: u64) -> Vec<u8> {
    [flags, 0, resolve].iter().flat_map(|field| field.to_le_bytes()).collect()
}

/// Bytes as hexadecimal digits.
pub fn hex(bytes: &[u8]) -> String {
    bytes.iter().map(|byte| format!("{byte:02x}")).collect()
}

/// Hexadecimal digits as bytes; none if they are not that.
pub fn unhex(digits: &str) -> Option<Vec<u8>> {
    if !digits.bytes().all(|digit| digit.is_ascii_hexdigit()) || !digits.len().is_multiple_of(2) {
        return None;
    }
    (0..digits.len() / 2).map(|at| u8::from_str_radix(&digits[2 * at..][..2], 16).ok()).collect()
}
