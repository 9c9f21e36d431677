//! Rows that only a text has: coordinates of up to nine digits, and counts of coordinates and words
//! far from what the tree asks for.
use super::whole::MOST;
use crate::in_form::{InForm, OpRow};
use crate::text::{Row, Text};
use oracle::{Table, Words};

/// The largest coordinate that a put takes.
pub const EDGE: i32 = 1 << 20;

/// A coordinate that no put takes: next to the limit, next to powers of two beyond it, where an f32
/// or a reader that caps would turn, and of nine digits.
pub fn coordinate(words: &mut Words) -> i32 {
    let most = MOST as i32;
    let power = 1 << words.between(21, 29);
    let size = words.one_of(&[
        EDGE + 1,
        EDGE + 1,
        EDGE + 2,
        power - 1,
        power,
        power + 1,
        100_000_000,
        123_456_789,
        most,
    ]);
    words.one_of(&[size, -size])
}

/// A coordinate at the limit or next to it, on either side.
fn near_edge(words: &mut Words) -> i32 {
    let size = EDGE + words.between(-1, 1);
    words.one_of(&[size, -size])
}

/// Puts a few such rows between the text's own. What comes after may then be refused.
pub fn put_in(text: &mut Text, words: &mut Words) {
    put_rows_in(text, words, row);
}

/// Puts a few rows that `row` makes between a text's own.
pub fn put_rows_in<M, R>(
    text: &mut InForm<M, R>,
    words: &mut Words,
    row: fn(&InForm<M, R>, &mut Words) -> R,
) {
    for _ in 0..1 + words.below(4) {
        let row = row(text, words);
        let place = words.below(text.rows.len() + 1);
        text.rows.insert(place, row);
    }
}

fn row(text: &Text, words: &mut Words) -> Row {
    let channels = text.making.dimensions.clamp(1, 8) as usize;
    let index = index(text, words);
    match words.below(6) {
        0 => put(index, channels, words, near_edge),
        1 => put(index, channels, words, coordinate),
        2 | 3 => {
            let count = words.one_of(&[0, channels - 1, channels + 1, 9, 40]);
            put(index, count, words, |words| words.between(-4, 4))
        }
        _ => {
            let count = words.one_of(&[0, 0, 1, 2, 300]);
            Row::Add {
                index,
                words: (0..count).map(|_| words.word()).collect(),
            }
        }
    }
}

fn put(index: u32, count: usize, words: &mut Words, one: fn(&mut Words) -> i32) -> Row {
    Row::Put {
        index,
        coordinates: (0..count).map(|_| one(words)).collect(),
    }
}

/// An index that one of the text's rows names, or one at a limit.
pub fn index<M, R: OpRow>(text: &InForm<M, R>, words: &mut Words) -> u32 {
    let size = Table::SIZE as u32;
    let odd = words.one_of(&[0, size - 1, size, MOST - 1, MOST]);
    if text.rows.is_empty() || words.once_in(6) {
        return odd;
    }
    let row = &text.rows[words.below(text.rows.len())];
    row.index().unwrap_or(odd)
}
