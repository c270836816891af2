//! Lengths and first payload bytes on both sides of what is well formed.

use crate::wire::HEADER;

/// A message by its kind, whole length and, if it has one, first payload byte.
#[derive(Clone, Copy, PartialEq, Eq, Debug, PartialOrd, Ord)]
pub struct Shape {
    pub kind: u8,
    pub length: usize,
    pub payload: Option<u8>,
}

const fn plain(kind: u8, length: usize) -> Shape {
    Shape { kind, length, payload: None }
}

const fn loaded(length: usize, payload: u8) -> Shape {
    Shape { kind: 6, length, payload: Some(payload) }
}

pub const SHAPES: [Shape; 35] = [
    plain(0, 15),
    plain(1, 1),
    plain(1, 14),
    plain(1, 15),
    plain(1, 16),
    plain(2, 14),
    plain(2, 15),
    plain(2, 16),
    plain(3, 14),
    plain(3, 15),
    plain(3, 16),
    plain(4, 15),
    plain(4, 22),
    plain(4, 23),
    plain(4, 24),
    plain(5, 14),
    plain(5, 15),
    plain(5, 16),
    plain(6, 14),
    plain(6, 15),
    loaded(16, 0),
    loaded(16, 1),
    loaded(16, 2),
    loaded(16, 3),
    loaded(16, 4),
    loaded(17, 2),
    loaded(17, 3),
    loaded(17, 4),
    loaded(115, 3),
    loaded(116, 2),
    loaded(116, 3),
    loaded(117, 3),
    loaded(128, 3),
    plain(7, 15),
    plain(255, 15),
];

impl Shape {
    pub fn fits(&self, bytes: &[u8]) -> bool {
        bytes.len() == self.length
            && bytes.first() == Some(&self.kind)
            && self.payload.is_none_or(|first| bytes.get(HEADER) == Some(&first))
    }
}
