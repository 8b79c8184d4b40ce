//! Little-endian numbers in bytes that may be cut off anywhere.

/// Appends the low bytes of a number; what does not fit is cut off.
pub fn put(bytes: &mut Vec<u8>, number: usize, width: usize) {
    bytes.extend(&(number as u64).to_le_bytes()[..width.min(8)]);
}

/// The number at a place, if its bytes are there.
pub fn get(bytes: &[u8], at: usize, width: usize) -> Option<u64> {
    let field = bytes.get(at..at.checked_add(width)?)?;
    Some(field.iter().rev().fold(0, |number, byte| number << 8 | u64::from(*byte)))
}

/// The number at a place; 0 if its bytes are not there.
pub fn number_at(bytes: &[u8], at: usize, width: usize) -> usize {
    get(bytes, at, width).unwrap_or(0) as usize
}

/// Writes a number over the bytes at a place, if they are there.
pub fn set(bytes: &mut [u8], at: usize, width: usize, number: usize) {
    let mut field = Vec::new();
    put(&mut field, number, width);
    if let Some(place) = bytes.get_mut(at..at + width) {
        place.copy_from_slice(&field);
    }
}

/// Where the records of an image's parts begin, and how many they are, by its
/// header alone. Bytes that are not there read as zero.
#[derive(Clone, Copy, Debug)]
pub struct Layout {
    pub nodes: usize,
    pub mounts: usize,
    pub entries: usize,
    pub text: usize,
    pub mounts_at: usize,
    pub entries_at: usize,
    pub text_at: usize,
}

/// Where the nodes begin, and how long the records are.
pub const NODES_AT: usize = 20;
pub const NODE: usize = 12;
pub const MOUNT: usize = 8;
pub const ENTRY: usize = 8;

impl Layout {
    pub fn of(image: &[u8]) -> Layout {
        let number = |at, width| number_at(image, at, width);
        let (nodes, mounts, entries) = (number(4, 2), number(6, 2), number(8, 2));
        let mounts_at = NODES_AT + NODE * nodes;
        let entries_at = mounts_at + MOUNT * mounts;
        let text_at = entries_at + ENTRY * entries;
        Layout { nodes, mounts, entries, text: number(12, 4), mounts_at, entries_at, text_at }
    }

    pub fn node(&self, number: usize) -> usize {
        NODES_AT + NODE * number
    }

    pub fn mount(&self, number: usize) -> usize {
        self.mounts_at + MOUNT * number
    }

    pub fn entry(&self, number: usize) -> usize {
        self.entries_at + ENTRY * number
    }
}
