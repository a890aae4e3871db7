//! Keys and values.

/// A key: 1 to 64 printable bytes, ordered by bytes.
#[derive(Clone, PartialEq, Eq, PartialOrd, Ord, Debug)]
pub struct Key(pub Vec<u8>);

/// A value: 1 to 256 printable bytes.
#[derive(Clone, PartialEq, Eq, PartialOrd, Ord, Debug)]
pub struct Value(pub Vec<u8>);

impl Key {
    /// Returns the first four bytes, filled on the right with zero bytes, read big-endian.
    pub fn pos(&self) -> u32 {
        let mut b = [0u8; 4];
        for (to, from) in b.iter_mut().zip(&self.0) {
            *to = *from;
        }
        u32::from_be_bytes(b)
    }
}

fn printable(bytes: &[u8], most: usize) -> bool {
    !bytes.is_empty() && bytes.len() <= most && bytes.iter().all(|b| (33..=126).contains(b))
}

/// Returns the key with these bytes, if they are one.
pub fn key(bytes: &[u8]) -> Option<Key> {
    if printable(bytes, 64) {
        Some(Key(bytes.to_vec()))
    } else {
        None
    }
}

/// Returns the value with these bytes, if they are one.
pub fn value(bytes: &[u8]) -> Option<Value> {
    if printable(bytes, 256) {
        Some(Value(bytes.to_vec()))
    } else {
        None
    }
}
