//! Makings at each of their limits, from both sides, and with more than one fault.
use super::whole;
use crate::archive::{Archive, Making};
use oracle::Words;
use texts::generate::MOST;

/// Dimensions, capacity, cache16 and initial16.
pub const MAKINGS: [[u32; 4]; 33] = [
    [0, 4, 16, 16],
    [1, 4, 16, 16],
    [8, 4, 16, 16],
    [9, 4, 16, 16],
    [32, 4, 16, 16],
    [33, 4, 16, 16],
    [256, 4, 16, 16],
    [MOST, 4, 16, 16],
    [2, 0, 8, 8],
    [2, 1, 8, 8],
    [2, 2, 8, 8],
    [2, 256, 8, 8],
    [2, 257, 8, 8],
    [2, 65_538, 8, 8],
    [2, MOST, 8, 8],
    [3, 5, 0, 4],
    [3, 5, 15, 4],
    [3, 5, 17, 4],
    [3, 5, MOST, 4],
    [3, 5, 4, 0],
    [3, 5, 4, 1],
    [3, 5, 4, 15],
    [3, 5, 4, 16],
    [3, 5, 4, 17],
    [3, 5, 4, 32],
    [3, 5, 4, MOST],
    [3, 5, 17, 17],
    [0, 0, 17, 17],
    [33, 1, 17, 0],
    [32, 1, 17, 0],
    [1, 257, 16, 17],
    [8, 1, 0, 17],
    [0, 4, 0, 17],
];

/// A short archive with this making, over rows that another one wanted.
pub fn archive(making: [u32; 4], words: &mut Words) -> Archive {
    let [dimensions, capacity, cache16, initial16] = making;
    let making = Making {
        dimensions,
        capacity,
        cache16,
        initial16,
    };
    let rows = whole::short(words).rows;
    Archive { making, rows }
}
