//! Tags that are a SHA-1, made by the proved digest. A message signs the tag and not the value beside it, so the tag says whether a value is the one
//! that was put.

use crate::library;

/// Its number among document 003's algorithms.
pub const SHA1: i64 = 1;

/// The SHA-1 of a value; no value is as long as the library refuses.
pub fn of(value: &[u8]) -> [u8; 20] {
    library::sha1(value).unwrap_or_default()
}

/// Whether a tag is its value's, where its algorithm is SHA1.
pub fn right(tag: &[u8], algorithm: i64, value: &[u8]) -> Option<bool> {
    (algorithm == SHA1).then(|| of(value) == tag)
}

/// The same for people.
pub fn verdict(tag: &[u8], algorithm: i64, value: &[u8]) -> Option<String> {
    right(tag, algorithm, value).map(|right| if right { "right" } else { "wrong" }.to_string())
}
