//! One input more, from all of a function's space and from around its edges.
use crate::{halfway, Input, NAMED_32, NAMED_64};
use oracle::Words;

/// Patterns drawn beside another are no further away.
const BESIDE: i32 = 3;

/// A pattern of f32 of either sign: any, subnormal, whole or next to it, next to 2^20, next to a power
/// of two or to a named number, a NaN.
pub fn single(words: &mut Words) -> Input {
    let any = words.word() as u32;
    let bits = match words.below(10) {
        0..=2 => any,
        3 => any % 0x0080_0000,
        4 => (words.between(-(1 << 20), 1 << 20) as f32).to_bits(),
        5 => beside_32((words.between(0, 1 << 21) as f32 / 2.0).to_bits(), words),
        6 => (words.between(0, 1 << 24) as f32).to_bits(),
        7 => 1_048_576f32.to_bits() + words.below(64) as u32 - 32,
        8 => beside_32((any % 256) << 23, words),
        _ => beside_32(words.one_of(&NAMED_32).to_bits(), words),
    };
    let sign = (words.below(2) as u32) << 31;
    (u64::from(bits ^ sign), 0)
}

/// A pattern of f64 of either sign: any, within the range of f32, halfway between two f32 numbers or
/// next to it, next to an f32 number, from 0 to 1, next to a power of two or to a named number.
pub fn double(words: &mut Words) -> Input {
    let any = words.word();
    // below 2^128; what is subnormal is half of all
    let single = match words.below(2) {
        0 => words.below(0x7F80_0000) as u32,
        _ => words.below(0x0080_0000) as u32,
    };
    let bits = match words.below(8) {
        0 => any,
        1 => any % (1 << 52) + ((860 + words.below(300) as u64) << 52),
        2 | 3 => words.one_of(&halfway(single)),
        4 => beside_64(f64::from(f32::from_bits(single)).to_bits(), words),
        5 => (any as f64 / u64::MAX as f64).to_bits(),
        6 => beside_64((any % 2048) << 52, words),
        _ => beside_64(words.one_of(&NAMED_64).to_bits(), words),
    };
    let sign = (words.below(2) as u64) << 63;
    (bits ^ sign, 0)
}

/// Any word, one with few bits, or one with many.
pub fn word(words: &mut Words) -> Input {
    let (a, b, c) = (words.word(), words.word(), words.word());
    let word = match words.below(4) {
        0 | 1 => a,
        2 => a & b & c,
        _ => a | b | c,
    };
    (word, 0)
}

/// A share with a capacity: n/c or next to it, from 0 to 1, or any number at all.
pub fn share(words: &mut Words) -> Input {
    let any = words.word();
    let c = match words.below(4) {
        0 => any as u16,
        _ => 1 + words.below(256) as u16,
    };
    let n = words.below(usize::from(c) + 1) as f64;
    let part = (n / f64::from(c.max(1))).to_bits();
    let bits = match words.below(8) {
        0..=4 => beside_64(part, words),
        5 => (any as f64 / u64::MAX as f64).to_bits(),
        // products around 2^64
        6 => beside_64((1023 + 48 + words.below(17) as u64) << 52, words),
        _ => double(words).0,
    };
    (bits, c)
}

fn beside_32(bits: u32, words: &mut Words) -> u32 {
    bits.wrapping_add_signed(words.between(-BESIDE, BESIDE))
}

fn beside_64(bits: u64, words: &mut Words) -> u64 {
    bits.wrapping_add_signed(i64::from(words.between(-BESIDE, BESIDE)))
}
