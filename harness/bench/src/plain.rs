//! The plain loops of `plain/`: the words of a key, block by block, without vector instructions.
#![allow(unsafe_code)]

use chacha20::{BLOCK_WORDS, KEY_BYTES};

/// Fills a list with the words of a key from a number on, which the key has.
pub type Fill = fn(&[u8; KEY_BYTES], u64, &mut [u64]);

pub const OF_RUST: Fill = |key, start, words| fill(plain_rust_block, key, start, words);

/// None where no C compiler was at hand.
#[cfg(plain_c)]
pub const OF_C: Option<Fill> = Some(|key, start, words| fill(plain_c_block, key, start, words));
#[cfg(not(plain_c))]
pub const OF_C: Option<Fill> = None;

type Block = [u64; BLOCK_WORDS];

// Each asks nothing of its caller but what the types say, and keeps no reference.
unsafe extern "C" {
    safe fn plain_rust_block(key: &[u32; 8], counter: u32, words: &mut Block);
    #[cfg(plain_c)]
    safe fn plain_c_block(key: &[u32; 8], counter: u32, words: &mut Block);
}

/// The blocks of a stretch, those at its ends in part.
#[inline(always)]
fn fill(
    block: extern "C" fn(&[u32; 8], u32, &mut Block),
    key: &[u8; KEY_BYTES],
    start: u64,
    words: &mut [u64],
) {
    let (fours, _) = key.as_chunks();
    let key = std::array::from_fn(|n| u32::from_le_bytes(fours[n]));
    let mut counter = (start / BLOCK_WORDS as u64) as u32;
    let mut next = |words: &mut Block| {
        block(&key, counter, words);
        counter = counter.wrapping_add(1);
    };
    let mut kept = [0; BLOCK_WORDS];
    let skipped = (start % BLOCK_WORDS as u64) as usize;
    let before = (BLOCK_WORDS - skipped) % BLOCK_WORDS;
    let (first, rest) = words.split_at_mut(before.min(words.len()));
    if !first.is_empty() {
        next(&mut kept);
        first.copy_from_slice(&kept[skipped..][..first.len()]);
    }
    let (whole, last) = rest.as_chunks_mut();
    whole.iter_mut().for_each(&mut next);
    if !last.is_empty() {
        next(&mut kept);
        last.copy_from_slice(&kept[..last.len()]);
    }
}
