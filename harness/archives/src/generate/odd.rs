//! Rows that only an archive has: coordinates of up to nine digits, counts of coordinates and words far
//! from what the tree asks for, and keyed rows at the edges of what a key has.
use super::keyed::at_edge;
use crate::archive::{Archive, Row};
use oracle::Words;
use texts::generate::{odd_coordinate, odd_index, put_rows_in, EDGE};

/// Puts a few such rows between the archive's own. What comes after may then be answered otherwise.
pub fn put_in(archive: &mut Archive, words: &mut Words) {
    put_rows_in(archive, words, row);
}

fn row(archive: &Archive, words: &mut Words) -> Row {
    let index = odd_index(archive, words);
    let size = words.between(-8, 8) as f32;
    let weight = words.one_of(&[size.to_bits(), 0, 1 << 31, 0x7F80_0000, 0x7FC0_0000]);
    match words.below(6) {
        0 => {
            let coordinates = coordinates(archive, words);
            Row::Put { index, coordinates }
        }
        1 => {
            let coordinates = coordinates(archive, words);
            Row::Report { coordinates }
        }
        2 | 3 => at_edge(index, weight, words),
        _ => {
            let count = words.one_of(&[0, 1, 2, 16, 256, 257, 300, 479]);
            Row::Arrival {
                index,
                weight,
                start: words.one_of(&[0, u64::MAX]),
                words: (0..count).map(|_| words.word()).collect(),
            }
        }
    }
}

/// Of any number: at the limit or next to it, far beyond it, or small.
fn coordinates(archive: &Archive, words: &mut Words) -> Vec<i32> {
    let channels = archive.making.dimensions.clamp(1, 32) as usize;
    let count = words.one_of(&[
        channels,
        channels,
        channels,
        0,
        channels - 1,
        channels + 1,
        40,
    ]);
    let near = EDGE + words.between(-1, 1);
    let far = odd_coordinate(words);
    let size = words.one_of(&[near, -near, far, 4]);
    (0..count)
        .map(|_| words.one_of(&[size, size, 0, 1, -1]))
        .collect()
}
