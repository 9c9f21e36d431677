//! Archives of many rows: readings that drift, weights that fall so that the sample goes on changing, and
//! reports and rewritten readings between. No tree is asked while they are made.
use super::keyed::Keying;
use crate::archive::{Archive, Making, Row};
use oracle::{Table, Words};
use runs::generate::Widths;

#[derive(Clone, Copy)]
pub struct Big {
    pub rows: usize,
    pub dimensions: u32,
    pub capacity: u32,
    pub cache16: u32,
    /// One row in so many is a put or a report; none where it is 0.
    pub others: usize,
    /// By so much the weights fall from row to row.
    pub falls: f32,
    /// One arrival in so many has its words by a key; none where it is 0.
    pub keyed: usize,
}

const fn big(rows: usize, dimensions: u32, capacity: u32, cache16: u32) -> Big {
    Big {
        rows,
        dimensions,
        capacity,
        cache16,
        others: 8,
        falls: 0.02,
        keyed: 0,
    }
}

const fn keyed(one_in: usize, big: Big) -> Big {
    Big {
        keyed: one_in,
        ..big
    }
}

pub const BIGS: [Big; 10] = [
    big(100_000, 2, 8, 16),
    big(30_000, 1, 16, 8),
    big(20_000, 8, 5, 0),
    big(3_000, 4, 64, 4),
    big(1_600, 3, 256, 16),
    keyed(1, big(6_000, 2, 8, 16)),
    keyed(3, big(3_000, 4, 64, 8)),
    keyed(1, big(1_600, 8, 256, 0)),
    big(10_000, 32, 8, 16),
    big(1_600, 32, 256, 4),
];

impl Big {
    /// One of up to 6,000 rows and about 100,000 words.
    pub fn drawn(words: &mut Words) -> Self {
        let capacity = words.one_of(&[2, 3, 4, 8, 16, 17, 64]);
        Big {
            rows: 500 + words.below(100_000 / capacity as usize).min(5_500),
            dimensions: Widths::All.channels(words),
            capacity,
            cache16: words.below(17) as u32,
            others: words.one_of(&[2, 8, 40]),
            falls: words.one_of(&[0.0, 0.001, 0.02]),
            keyed: words.one_of(&[0, 0, 1, 4]),
        }
    }
}

/// How many indices an archive of this capacity uses. It puts them first.
pub fn pool(capacity: u32) -> u32 {
    (2 * capacity).clamp(20, Table::SIZE as u32)
}

pub fn archive(big: &Big, words: &mut Words) -> Archive {
    let pool = pool(big.capacity);
    let spread = words.one_of(&[3, 40, 5_000, 1 << 18]);
    let mut keying = Keying::in_a_row(words);
    let mut rows: Vec<Row> = (0..pool)
        .map(|index| put(index, big, spread, words))
        .collect();
    for n in rows.len()..big.rows.max(rows.len()) {
        let index = words.below(pool as usize) as u32;
        let other = big.others > 0 && words.once_in(big.others);
        let keyed = big.keyed > 0 && words.once_in(big.keyed);
        let weight = (words.below(4_096) as f32 / 512.0 - n as f32 * big.falls).to_bits();
        rows.push(match words.below(3) {
            0 if other => Row::Report {
                coordinates: reading(big, spread, words),
            },
            _ if other => put(index, big, spread, words),
            _ if keyed => keying.row(index, weight, words),
            _ => Row::Arrival {
                index,
                weight,
                start: words.word(),
                words: (0..big.capacity).map(|_| words.word()).collect(),
            },
        });
    }
    let making = Making {
        dimensions: big.dimensions,
        capacity: big.capacity,
        cache16: big.cache16,
        initial16: 8,
    };
    Archive { making, rows }
}

fn put(index: u32, big: &Big, spread: i32, words: &mut Words) -> Row {
    let coordinates = reading(big, spread, words);
    Row::Put { index, coordinates }
}

fn reading(big: &Big, spread: i32, words: &mut Words) -> Vec<i32> {
    (0..big.dimensions)
        .map(|_| words.between(-spread, spread))
        .collect()
}
