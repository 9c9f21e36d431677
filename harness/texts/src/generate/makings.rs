//! Makings at each of their limits, from both sides, and with more than one fault.
use super::whole;
use crate::text::{Making, Text};
use oracle::Words;

const MOST: u32 = whole::MOST;

/// Dimensions, capacity and cache16.
pub const MAKINGS: [[u32; 3]; 22] = [
    [0, 4, 16],
    [1, 4, 16],
    [8, 4, 16],
    [9, 4, 16],
    [256, 4, 16],
    [MOST, 4, 16],
    [2, 0, 8],
    [2, 1, 8],
    [2, 2, 8],
    [2, 256, 8],
    [2, 257, 8],
    [2, 65_538, 8],
    [2, MOST, 8],
    [3, 5, 0],
    [3, 5, 15],
    [3, 5, 17],
    [3, 5, MOST],
    [0, 0, 17],
    [9, 1, 17],
    [9, 2, 17],
    [1, 257, 17],
    [8, 1, 0],
];

/// Makings of more channels than the program prints, within the limits of a tree and beyond them.
pub const WIDE_MAKINGS: [[u32; 3]; 6] = [
    [9, 4, 16],
    [9, 1, 17],
    [16, 256, 0],
    [32, 4, 8],
    [32, 257, 16],
    [33, 4, 16],
];

/// A short text with this making, over rows that another one wanted.
pub fn text(making: [u32; 3], words: &mut Words) -> Text {
    let [dimensions, capacity, cache16] = making;
    let making = Making {
        dimensions,
        capacity,
        cache16,
    };
    let rows = whole::text(words, 300).rows;
    Text { making, rows }
}
