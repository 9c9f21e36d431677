//! Texts filled up to an exact length, at and around the largest, in form or with a bad row before
//! the length is reached.
use super::{whole, Given};
use crate::form::MOST_BYTES;
use crate::in_form::joined;
use crate::text::{Row, Text};
use oracle::Words;

/// What a text is filled up with.
#[derive(Clone, Copy)]
pub enum Fill {
    /// As many deletes as there is room for.
    Deletes,
    /// One put with all the coordinates that there is room for.
    Coordinates,
    /// One add with all the words that there is room for.
    Words,
}

/// Where a bad row stands, if one does.
#[derive(Clone, Copy)]
pub enum Bad {
    Nowhere,
    First,
    Making,
    /// The last row has no line feed.
    Last,
}

#[derive(Clone, Copy)]
pub struct Long {
    pub bytes: usize,
    fill: Fill,
    bad: Bad,
}

const fn long(bytes: usize, fill: Fill, bad: Bad) -> Long {
    Long { bytes, fill, bad }
}

pub const LONGS: [Long; 20] = [
    long(MOST_BYTES - 1, Fill::Deletes, Bad::Nowhere),
    long(MOST_BYTES, Fill::Deletes, Bad::Nowhere),
    long(MOST_BYTES + 1, Fill::Deletes, Bad::Nowhere),
    long(MOST_BYTES - 1, Fill::Coordinates, Bad::Nowhere),
    long(MOST_BYTES, Fill::Coordinates, Bad::Nowhere),
    long(MOST_BYTES + 1, Fill::Coordinates, Bad::Nowhere),
    long(MOST_BYTES - 1, Fill::Words, Bad::Nowhere),
    long(MOST_BYTES, Fill::Words, Bad::Nowhere),
    long(MOST_BYTES + 1, Fill::Words, Bad::Nowhere),
    long(MOST_BYTES - 1, Fill::Words, Bad::First),
    long(MOST_BYTES, Fill::Deletes, Bad::First),
    long(MOST_BYTES + 1, Fill::Deletes, Bad::First),
    long(MOST_BYTES, Fill::Coordinates, Bad::Making),
    long(MOST_BYTES + 1, Fill::Words, Bad::Making),
    long(MOST_BYTES, Fill::Deletes, Bad::Last),
    long(MOST_BYTES, Fill::Coordinates, Bad::Last),
    long(MOST_BYTES + 1, Fill::Deletes, Bad::Last),
    long(MOST_BYTES + 2, Fill::Words, Bad::Last),
    long(2 * MOST_BYTES, Fill::Deletes, Bad::Nowhere),
    long(3 * MOST_BYTES, Fill::Coordinates, Bad::First),
];

/// A text of exactly the length.
pub fn text(long: &Long, words: &mut Words) -> Given {
    let room = words.one_of(&[0, 2_000, 20_000]);
    let mut text = whole::text(words, room.min(long.bytes / 2));
    let spare = match long.bad {
        // the bad row's bytes
        Bad::First => BAD_ROW.len() + 1,
        Bad::Making => 1,
        Bad::Nowhere | Bad::Last => 0,
    };
    let bytes = match long.bad {
        Bad::Last => long.bytes + 1,
        _ => long.bytes,
    };
    fill(&mut text, long.fill, bytes - spare);
    let (bytes, reads) = spoilt(text, long.bad);
    assert_eq!(bytes.len(), long.bytes);
    Given {
        kind: "filled to a length",
        known: Some(match long.bytes > MOST_BYTES {
            true => Err(0),
            false => reads,
        }),
        bytes,
    }
}

const BAD_ROW: &[u8] = b"3 0";

/// The text's bytes with the bad row in them, and how they read if they aren't too many.
fn spoilt(text: Text, bad: Bad) -> (Vec<u8>, Result<Text, usize>) {
    let mut lines = text.lines();
    match bad {
        Bad::Nowhere => (joined(&lines), Ok(text)),
        Bad::First => {
            lines.insert(3, BAD_ROW.to_vec());
            (joined(&lines), Err(1))
        }
        Bad::Making => {
            lines[1].push(b' ');
            (joined(&lines), Err(0))
        }
        Bad::Last => {
            let mut bytes = joined(&lines);
            bytes.pop();
            (bytes, Err(text.rows.len()))
        }
    }
}

/// The shortest row has this many bytes.
const LEAST: usize = 4;

/// Adds rows until the text has exactly so many bytes.
fn fill(text: &mut Text, fill: Fill, bytes: usize) {
    let left = bytes - text.bytes().len();
    match fill {
        Fill::Deletes => {
            let count = left / LEAST - 1;
            let delete = Row::Delete { index: 0 };
            text.rows.extend(std::iter::repeat_n(delete, count));
        }
        Fill::Coordinates => {}
        Fill::Words => {
            let count = (left - 2 * LEAST) / 17;
            text.rows.push(Row::Add {
                index: 0,
                words: vec![u64::MAX; count],
            });
        }
    }
    let left = bytes - text.bytes().len();
    text.rows.push(row_of(left));
}

/// A row of exactly so many bytes, its line feed counted.
fn row_of(bytes: usize) -> Row {
    match bytes - LEAST {
        // no put of whole numbers has one byte more than the shortest
        1 => Row::Delete { index: 10 },
        rest => Row::Put {
            index: 0,
            coordinates: ones(rest),
        },
    }
}

/// Coordinates that are so many bytes as fields of a row: ones, and a ten where the number is odd. It is not 1.
pub fn ones(bytes: usize) -> Vec<i32> {
    match bytes % 2 {
        0 => vec![1; bytes / 2],
        _ => [vec![10], vec![1; (bytes - 3) / 2]].concat(),
    }
}
