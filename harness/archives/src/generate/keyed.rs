//! Arrivals whose words are those of a key, to stand among those that bring theirs.
use crate::archive::{Archive, Row, KEYED_WORDS};
use chacha20::{BLOCK_WORDS, KEY_BYTES, WORDS};
use oracle::Words;

const EACH: u64 = KEYED_WORDS as u64;
/// The last number that a key has enough words from.
const LAST: u64 = WORDS - EACH;

/// Numbers of first words: at the start, next to a block's border, next to the last that a row can have, and beyond it,
/// up to where the number of the row's last word has no place in 64 bits.
const EDGES: [u64; 22] = [
    0,
    1,
    BLOCK_WORDS as u64 - 1,
    BLOCK_WORDS as u64,
    (1 << 32) - 1,
    (1 << 34) - 1,
    LAST - 1,
    LAST,
    LAST,
    LAST + 1,
    LAST + 2,
    LAST + BLOCK_WORDS as u64,
    WORDS - 1,
    WORDS,
    WORDS + 1,
    1 << 38,
    1 << 63,
    u64::MAX - EACH,
    u64::MAX - EACH + 1,
    u64::MAX - EACH + 2,
    u64::MAX - 1,
    u64::MAX,
];

/// Which words of which key the keyed rows of an archive name.
#[derive(Clone, Copy)]
enum Habit {
    /// One key, whose words are used up in a row.
    InARow,
    /// One key, and any stretch of its first thousand words, so that most overlap.
    OneKey,
    /// Another key each time, and any stretch of it.
    Anything,
    /// One key, and a number at an edge.
    AtEdges,
}

pub struct Keying {
    habit: Habit,
    key: [u8; KEY_BYTES],
    next: u64,
    /// One arrival in so many is keyed.
    one_in: usize,
}

impl Keying {
    /// One key in a row, for every arrival.
    pub fn in_a_row(words: &mut Words) -> Self {
        Keying {
            habit: Habit::InARow,
            key: any_key(words),
            next: 0,
            one_in: 1,
        }
    }

    pub fn drawn(words: &mut Words) -> Self {
        use Habit::*;
        let within = words.word() % LAST;
        Keying {
            habit: words.one_of(&[InARow, InARow, OneKey, Anything, AtEdges]),
            key: any_key(words),
            next: words.one_of(&[0, 0, within, LAST - 5 * EACH]),
            one_in: words.one_of(&[1, 2, 2, 8]),
        }
    }

    /// Puts keyed rows in place of some arrivals. What comes after may then be answered otherwise.
    pub fn put_in(&mut self, archive: &mut Archive, words: &mut Words) {
        for row in &mut archive.rows {
            match *row {
                Row::Arrival { index, weight, .. } if words.once_in(self.one_in) => {
                    *row = self.row(index, weight, words);
                }
                _ => {}
            }
        }
    }

    /// The next keyed row.
    pub fn row(&mut self, index: u32, weight: u32, words: &mut Words) -> Row {
        let (key, first) = (self.key, self.next);
        self.next = match self.habit {
            Habit::InARow => first.saturating_add(EACH),
            Habit::OneKey => words.word() % (4 * EACH),
            Habit::Anything => {
                self.key = any_key(words);
                words.word() % LAST
            }
            Habit::AtEdges => words.one_of(&EDGES),
        };
        Row::Keyed {
            index,
            weight,
            key,
            first,
        }
    }
}

/// A keyed row at an edge, whatever index and weight.
pub fn at_edge(index: u32, weight: u32, words: &mut Words) -> Row {
    Row::Keyed {
        index,
        weight,
        key: any_key(words),
        first: words.one_of(&EDGES),
    }
}

fn any_key(words: &mut Words) -> [u8; KEY_BYTES] {
    match words.below(16) {
        0 => [words.one_of(&[0, 1, 255]); KEY_BYTES],
        _ => std::array::from_fn(|_| words.word() as u8),
    }
}
