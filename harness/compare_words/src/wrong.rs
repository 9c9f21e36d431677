//! Wrong sources of words, each with one thing wrong, to stand in the port's place.
use chacha20::{block, is_stretch, stretch, word, KEY_LENGTH, PAST_THE_END, WORDS};
use chacha20::{BLOCK_BYTES, BLOCK_WORDS, KEY_BYTES, NONCE_BYTES, WORD_BYTES};
use port::Source;

type Key = [u8; KEY_BYTES];

const BLOCK: u64 = BLOCK_WORDS as u64;

pub const START_NOT_ADDED: Source = |k, s, w| filled(k, s, w, |key, n| word(key, n - s));
pub const SAME_BLOCK: Source =
    |k, s, w| filled(k, s, w, |key, n| word(key, s / BLOCK * BLOCK + n % BLOCK));

/// Right refusals, wrong words.
pub const WORDS_WRONG: [(&str, Source); 12] = [
    ("the high byte first", |k, s, w| {
        filled(k, s, w, |key, n| word(key, n).swap_bytes())
    }),
    ("the high half first", |k, s, w| {
        filled(k, s, w, |key, n| word(key, n).rotate_left(32))
    }),
    ("the counter from 1", |k, s, w| {
        filled(k, s, w, |key, n| word(key, (n + BLOCK) % WORDS))
    }),
    ("a word's number taken for a byte's", |k, s, w| {
        filled(k, s, w, from_byte)
    }),
    ("the start not added", START_NOT_ADDED),
    ("the start's block from its first word on", |k, s, w| {
        filled(k, s, w, |key, n| word(key, n - s % BLOCK))
    }),
    ("the block not advanced at its border", SAME_BLOCK),
    ("16 bits of the counter", |k, s, w| {
        filled(k, s, w, |key, n| word(key, n % (BLOCK << 16)))
    }),
    ("31 bits of the counter", |k, s, w| {
        filled(k, s, w, |key, n| word(key, n % (BLOCK << 31)))
    }),
    ("a nonce other than zero", |k, s, w| {
        filled(k, s, w, with_other_nonce)
    }),
    ("the key's fours high byte first", |k, s, w| {
        filled(k, s, w, |key, n| word(&with_fours_turned(key), n))
    }),
    ("the key's last byte left out", |k, s, w| {
        filled(k, s, w, |key, n| {
            let mut key = *key;
            key[KEY_BYTES - 1] = 0;
            word(&key, n)
        })
    }),
];

/// Wrong in what is refused, or in what is returned.
pub const OTHERWISE_WRONG: [(&str, Source); 14] = [
    (
        "the start's refusal before the key's",
        |k, s, w| match is_stretch(s, w.len()) {
            false => PAST_THE_END as usize,
            true => right(k, s, w),
        },
    ),
    ("word 2^35 - 1 refused", |k, s, w| {
        let last = s.checked_add(w.len() as u64) == Some(WORDS);
        match k.len() == KEY_BYTES && last {
            true => PAST_THE_END as usize,
            false => right(k, s, w),
        }
    }),
    ("word 2^35 taken", |k, s, w| {
        let end = s.checked_add(w.len() as u64);
        taken(k, s, w, end.is_some_and(|end| end <= WORDS + 1))
    }),
    ("an empty list taken at 2^35", |k, s, w| {
        let end = s.checked_add(w.len() as u64);
        taken(k, s, w, end.is_some_and(|end| end <= WORDS))
    }),
    ("the sum of start and length wrapped", |k, s, w| {
        let end = s.wrapping_add(w.len() as u64);
        taken(k, s, w, end <= WORDS)
    }),
    ("the start alone looked at", |k, s, w| {
        taken(k, s, w, s < WORDS)
    }),
    ("a key of 31 bytes taken", |k, s, w| match k.len() {
        31 => right(&[k, &[0]].concat(), s, w),
        _ => right(k, s, w),
    }),
    ("a longer key taken", |k, s, w| {
        right(&k[..k.len().min(KEY_BYTES)], s, w)
    }),
    ("a key's length by its low byte", |k, s, w| {
        let length = k.len() % 256;
        right(&k[..length.min(k.len())], s, w)
    }),
    ("one word too few", |k, s, w| {
        let fewer = w.len().saturating_sub(1);
        match refusal(k, s, w.len()) {
            Some(refusal) => refusal,
            None => right(k, s, &mut w[..fewer]),
        }
    }),
    ("the last word left as it was", |k, s, w| {
        let fewer = w.len().saturating_sub(1);
        match refusal(k, s, w.len()) {
            Some(refusal) => refusal,
            None => {
                right(k, s, &mut w[..fewer]);
                WORD_BYTES * w.len()
            }
        }
    }),
    ("words returned for bytes", |k, s, w| {
        match refusal(k, s, w.len()) {
            Some(refusal) => refusal,
            None => right(k, s, w) / WORD_BYTES,
        }
    }),
    ("refused and written", |k, s, w| {
        if let (Some(refusal), [first, ..]) = (refusal(k, s, w.len()), &mut *w) {
            *first = 0;
            return refusal;
        }
        right(k, s, w)
    }),
    (
        "nothing refused, nothing written",
        |k, s, w| match refusal(k, s, w.len()) {
            Some(_) => 0,
            None => right(k, s, w),
        },
    ),
];

/// What the port must do.
fn right(key: &[u8], start: u64, words: &mut [u64]) -> usize {
    match stretch(key, start, words) {
        Ok(()) => WORD_BYTES * words.len(),
        Err(refusal) => refusal as usize,
    }
}

/// Refuses what has to be refused, and fills all else with what `each` says of key and number.
fn filled(key: &[u8], start: u64, words: &mut [u64], each: impl Fn(&Key, u64) -> u64) -> usize {
    if let Some(refusal) = refusal(key, start, words.len()) {
        return refusal;
    }
    let key = key.try_into().expect("no refusal");
    for (place, n) in words.iter_mut().zip(start..) {
        *place = each(key, n);
    }
    WORD_BYTES * words.len()
}

/// Takes a stretch by what is said of it, whatever its end; after the last word comes the first.
fn taken(key: &[u8], start: u64, words: &mut [u64], taken: bool) -> usize {
    let Ok(key) = key.try_into() else {
        return KEY_LENGTH as usize;
    };
    if !taken {
        return PAST_THE_END as usize;
    }
    for (place, n) in words.iter_mut().zip(0..) {
        *place = word(key, start.wrapping_add(n) % WORDS);
    }
    WORD_BYTES * words.len()
}

fn refusal(key: &[u8], start: u64, length: usize) -> Option<usize> {
    if key.len() != KEY_BYTES {
        return Some(KEY_LENGTH as usize);
    }
    (!is_stretch(start, length)).then_some(PAST_THE_END as usize)
}

/// The eight keystream bytes from byte n on.
fn from_byte(key: &Key, n: u64) -> u64 {
    let bytes = BLOCK_BYTES as u64;
    let two = [0, 1].map(|next| {
        let counter = (n / bytes + next) as u32;
        block(key, counter, &[0; NONCE_BYTES])
    });
    let eight = &two.concat()[(n % bytes) as usize..][..WORD_BYTES];
    u64::from_le_bytes(eight.try_into().expect("eight bytes"))
}

fn with_other_nonce(key: &Key, n: u64) -> u64 {
    let mut nonce = [0; NONCE_BYTES];
    nonce[NONCE_BYTES - 1] = 1;
    let bytes = block(key, (n / BLOCK) as u32, &nonce);
    let eight = &bytes[WORD_BYTES * (n % BLOCK) as usize..][..WORD_BYTES];
    u64::from_le_bytes(eight.try_into().expect("eight bytes"))
}

fn with_fours_turned(key: &Key) -> Key {
    let mut key = *key;
    key.chunks_mut(4).for_each(<[u8]>::reverse);
    key
}
