//! Stretches to ask for: those at the edges of blocks, of the range and of what a key is, then drawn ones.
use chacha20::{BLOCK_WORDS, WORDS};
use oracle::Words;

/// A key, the number of the first word, and how many words are lent.
#[derive(Clone, Debug)]
pub struct Asked {
    pub key: Vec<u8>,
    pub start: u64,
    pub length: usize,
}

const BLOCK: u64 = BLOCK_WORDS as u64;

/// Lengths of other keys: next to 32, and such as look like 32 where only a byte or two of a length are looked at.
const OTHER_KEYS: [usize; 11] = [0, 1, 8, 16, 24, 31, 33, 64, 288, 544, 65_568];

/// Lengths at which a stretch ends at a block's border, before it or after it.
const LENGTHS: [usize; 12] = [0, 1, 2, 7, 8, 9, 15, 16, 17, 64, 256, 257];

const LONG: [usize; 4] = [5_000, 8_192, 30_001, 65_536];

/// All stretches of a seed, without end.
pub fn stretches(seed: u64) -> impl Iterator<Item = Asked> {
    let words = &mut Words::new(seed);
    let mut listed = first_words(words);
    listed.extend(borders(words));
    listed.extend(range_end(words));
    listed.extend(beyond(words));
    listed.extend(other_keys(words));
    listed.extend(LONG.map(|length| drawn_of(length, words)));
    let others = (0..).map(move |n| drawn(&mut Words::nth(seed, n)));
    listed.into_iter().chain(others)
}

/// A key of 32 bytes: mostly any, sometimes one byte throughout.
fn key(words: &mut Words) -> Vec<u8> {
    let one = words.word() as u8;
    match words.below(16) {
        0 => vec![words.one_of(&[0, 255, one]); 32],
        _ => key_of(32, words),
    }
}

fn key_of(length: usize, words: &mut Words) -> Vec<u8> {
    (0..length).map(|_| words.word() as u8).collect()
}

fn asked(start: u64, length: usize, words: &mut Words) -> Asked {
    Asked {
        key: key(words),
        start,
        length,
    }
}

/// Every short stretch of the first two blocks.
fn first_words(words: &mut Words) -> Vec<Asked> {
    let starts = 0..2 * BLOCK + 2;
    let all = starts.flat_map(|start| (0..2 * BLOCK_WORDS + 2).map(move |length| (start, length)));
    all.map(|(start, length)| asked(start, length, words))
        .collect()
}

/// Stretches next to the first word of block 1, 2, 4 and so on up to 2^31, where another bit of the counter is set.
fn borders(words: &mut Words) -> Vec<Asked> {
    let mut all = Vec::new();
    for border in (0..32).map(|power| BLOCK << power) {
        for start in border - 2..=border + 2 {
            all.extend(LENGTHS.map(|length| asked(start, length, words)));
        }
        // ends there
        for length in LENGTHS {
            let start = border.checked_sub(length as u64);
            all.extend(start.map(|start| asked(start, length, words)));
        }
    }
    all
}

/// Stretches whose end is that of the range, some words before it or some after.
fn range_end(words: &mut Words) -> Vec<Asked> {
    let lengths = LENGTHS.iter().chain(&[1_000, 4_097]);
    let mut all = Vec::new();
    for length in lengths {
        let at_end = WORDS - *length as u64;
        for start in at_end - BLOCK - 1..=at_end + BLOCK + 1 {
            all.push(asked(start, *length, words));
        }
    }
    all
}

/// Starts far beyond the range, and such that start and length have no sum in 64 bits, or a small one.
fn beyond(words: &mut Words) -> Vec<Asked> {
    let mut all = Vec::new();
    for length in LENGTHS {
        let far = [
            WORDS - 1,
            WORDS,
            WORDS + 1,
            WORDS + 5 * BLOCK,
            2 * WORDS,
            1 << 38,
            1 << 63,
            i64::MAX as u64,
            u64::MAX - BLOCK,
            u64::MAX - 1,
            u64::MAX,
        ];
        let sum_of_none = 0u64.wrapping_sub(length as u64);
        let sums = [0, 1, 9].map(|sum| sum_of_none.wrapping_add(sum));
        all.extend(
            far.into_iter()
                .chain(sums)
                .map(|start| asked(start, length, words)),
        );
    }
    all
}

/// Keys of other lengths, with starts and stretches in the range and out of it.
fn other_keys(words: &mut Words) -> Vec<Asked> {
    let mut all = Vec::new();
    for key_length in OTHER_KEYS {
        for start in [0, 5, WORDS - 1, WORDS, u64::MAX] {
            all.extend([0, 1, 9].map(|length| Asked {
                key: key_of(key_length, words),
                start,
                length,
            }));
        }
    }
    all
}

/// Any stretch: most of some hundred words, in the range.
fn drawn(words: &mut Words) -> Asked {
    let length = match words.below(400) {
        0 => words.one_of(&LONG),
        1..=3 => words.below(4_000),
        4..=99 => words.below(3 * BLOCK_WORDS + 1),
        _ => words.below(700),
    };
    drawn_of(length, words)
}

fn drawn_of(length: usize, words: &mut Words) -> Asked {
    let key = match words.once_in(50) {
        true => key_of(words.one_of(&OTHER_KEYS), words),
        false => key(words),
    };
    let start = start(length, words);
    Asked { key, start, length }
}

/// A start anywhere in the range; or of few bits, next to a border, next to the range's end, or any at all.
fn start(length: usize, words: &mut Words) -> u64 {
    let anywhere = words.word() % WORDS;
    let near = words.below(2 * BLOCK_WORDS + 1) as u64;
    match words.below(16) {
        0 => anywhere >> words.below(36),
        1 | 2 => (anywhere / BLOCK * BLOCK + near).min(WORDS - 1),
        3 => (WORDS - length as u64 + near).saturating_sub(BLOCK),
        4 if words.once_in(4) => words.word(),
        _ => anywhere,
    }
}
