//! The words of a key: nonce zero, the block counter from 0, eight keystream bytes to a word, the low byte first.
use crate::block::{block, BLOCK_BYTES, KEY_BYTES, NONCE_BYTES};

pub const WORD_BYTES: usize = 8;
pub const BLOCK_WORDS: usize = BLOCK_BYTES / WORD_BYTES;

/// How many words a key has: eight to each of 2^32 blocks. The last is word 2^35 - 1.
pub const WORDS: u64 = 1 << 35;

/// The refusals: a key that has not 32 bytes, and a stretch that no key has.
pub const KEY_LENGTH: u32 = 21;
pub const PAST_THE_END: u32 = 22;

const NONCE: [u8; NONCE_BYTES] = [0; NONCE_BYTES];

/// Word n of a key; n is below 2^35.
pub fn word(key: &[u8; KEY_BYTES], n: u64) -> u64 {
    block_words(key, n / BLOCK_WORDS as u64)[(n % BLOCK_WORDS as u64) as usize]
}

/// Fills the list with the words of a key from number `start` on, block by block. The last of them is below 2^35.
pub fn fill(key: &[u8; KEY_BYTES], start: u64, words: &mut [u64]) {
    let mut number = start / BLOCK_WORDS as u64;
    let mut skipped = (start % BLOCK_WORDS as u64) as usize;
    let mut rest = words;
    while !rest.is_empty() {
        let of_block = &block_words(key, number)[skipped..];
        let (filled, after) = rest.split_at_mut(rest.len().min(of_block.len()));
        filled.copy_from_slice(&of_block[..filled.len()]);
        rest = after;
        number += 1;
        skipped = 0;
    }
}

/// The same for any key and any start, or the refusal: first the key's, then the stretch's.
pub fn stretch(key: &[u8], start: u64, words: &mut [u64]) -> Result<(), u32> {
    let key = key.try_into().map_err(|_| KEY_LENGTH)?;
    match is_stretch(start, words.len()) {
        false => Err(PAST_THE_END),
        true => {
            fill(key, start, words);
            Ok(())
        }
    }
}

/// Whether a key has so many words from number `start` on. Not even none are there from word 2^35 on.
pub fn is_stretch(start: u64, length: usize) -> bool {
    start < WORDS && length as u64 <= WORDS - start
}

/// The words of a block; its number is below 2^32.
fn block_words(key: &[u8; KEY_BYTES], number: u64) -> [u64; BLOCK_WORDS] {
    let counter = u32::try_from(number).expect("no key has such a block");
    let bytes = block(key, counter, &NONCE);
    let of_word = |n: usize| bytes[WORD_BYTES * n..][..WORD_BYTES].try_into();
    std::array::from_fn(|n| u64::from_le_bytes(of_word(n).expect("eight bytes")))
}
