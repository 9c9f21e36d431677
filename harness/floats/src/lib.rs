//! The functions of floats of the port's crates `readings` and `little`: what the Rust language itself
//! answers, by comparisons, `trunc`, `is_finite`, `as f32`, `as usize` and patterns, and inputs for them.
#![forbid(unsafe_code)]

mod draw;

use oracle::Words;

const RANDOM: usize = 1000;
/// The patterns that stand for every NaN.
const NAN_32: u32 = 0x7FC0_0000;
const NAN_64: u64 = 0x7FF8_0000_0000_0000;

/// What a function is given: a pattern or a word, and a capacity for the one function that has one.
pub type Input = (u64, u16);

/// A function by the kind of its records: inputs at its edges and some others, one more input, and its
/// answer to one.
pub struct Function {
    pub kind: u32,
    pub name: &'static str,
    pub inputs: fn(&mut Words) -> Vec<Input>,
    pub draw: fn(&mut Words) -> Input,
    pub answer: fn(Input) -> u64,
}

pub const FUNCTIONS: [Function; 8] = [
    Function {
        kind: 4,
        name: "is_coordinate",
        inputs: singles,
        draw: draw::single,
        answer: |x| u64::from(is_coordinate(single(x))),
    },
    Function {
        kind: 5,
        name: "is_weight",
        inputs: singles,
        draw: draw::single,
        answer: |x| u64::from(is_weight(single(x))),
    },
    Function {
        kind: 6,
        name: "is_share",
        inputs: doubles,
        draw: draw::double,
        answer: |x| u64::from((0.0..=1.0).contains(&double(x))),
    },
    Function {
        kind: 7,
        name: "factor",
        inputs: random_words,
        draw: draw::word,
        answer: |(word, _)| pattern_64((word >> 11) as f64 / (1u64 << 53) as f64),
    },
    Function {
        kind: 8,
        name: "narrow",
        inputs: doubles,
        draw: draw::double,
        answer: |x| pattern_32(double(x) as f32),
    },
    Function {
        kind: 9,
        name: "cached_part",
        inputs: shares,
        draw: draw::share,
        answer: |x| (double(x) * f64::from(x.1)) as usize as u64,
    },
    Function {
        kind: 10,
        name: "float_of, pattern_of",
        inputs: singles,
        draw: draw::single,
        answer: |x| pattern_32(single(x)),
    },
    Function {
        kind: 11,
        name: "double_of",
        inputs: doubles,
        draw: draw::double,
        answer: |x| pattern_64(double(x)),
    },
];

pub fn single((bits, _): Input) -> f32 {
    f32::from_bits(bits as u32)
}

pub fn double((bits, _): Input) -> f64 {
    f64::from_bits(bits)
}

/// The bits of an f32; every NaN has the same.
pub fn pattern_32(x: f32) -> u64 {
    u64::from(if x.is_nan() { NAN_32 } else { x.to_bits() })
}

pub fn pattern_64(x: f64) -> u64 {
    if x.is_nan() {
        NAN_64
    } else {
        x.to_bits()
    }
}

fn is_minus_zero(x: f32) -> bool {
    x == 0.0 && x.is_sign_negative()
}

fn is_coordinate(x: f32) -> bool {
    x.trunc() == x && x.abs() <= 1_048_576.0 && !is_minus_zero(x)
}

fn is_weight(x: f32) -> bool {
    x.is_finite() && !is_minus_zero(x)
}

/// Numbers at which something changes.
const NAMED_32: [f32; 15] = [
    0.0,
    0.5,
    1.0,
    1.5,
    3.0,
    1_048_575.0,
    1_048_575.5,
    1_048_576.0,
    1_048_577.0,
    8_388_608.0,
    16_777_216.0,
    f32::MIN_POSITIVE,
    f32::MAX,
    f32::INFINITY,
    f32::NAN,
];

const NAMED_64: [f64; 12] = [
    0.0,
    0.5,
    1.0,
    1.0 / 3.0,
    1_048_576.0,
    1_048_576.062_5,
    1_048_576.187_5,
    f32::MAX as f64,
    f64::MIN_POSITIVE,
    f64::MAX,
    f64::INFINITY,
    f64::NAN,
];

/// Patterns of f32: named ones with their neighbours, every power of two, whole numbers, halves, and
/// any.
fn singles(words: &mut Words) -> Vec<Input> {
    let mut bits: Vec<u32> = vec![1, 0x007F_FFFF, 0x7F80_0001, 0x7FBF_FFFF, 0x7FFF_FFFF];
    bits.extend(NAMED_32.iter().flat_map(|x| near_32(x.to_bits())));
    bits.extend((0..255).flat_map(|field| near_32(field << 23)));
    for _ in 0..RANDOM / 4 {
        let whole = words.between(-(1 << 20), 1 << 20) as f32;
        let beyond = words.between(-(1 << 24), 1 << 24) as f32;
        bits.extend([whole, whole + 0.5, beyond].map(f32::to_bits));
        bits.push(words.word() as u32);
    }
    bits.extend((0..RANDOM / 2).map(|_| words.word() as u32));
    let signed = bits.into_iter().flat_map(|b| [b, b ^ 0x8000_0000]);
    signed.map(|b| (u64::from(b), 0)).collect()
}

/// A pattern and those next to it.
fn near_32(bits: u32) -> [u32; 3] {
    [bits.wrapping_sub(1), bits, bits.wrapping_add(1)]
}

fn near_64(bits: u64) -> [u64; 3] {
    [bits.wrapping_sub(1), bits, bits.wrapping_add(1)]
}

/// Patterns of f64: named ones with their neighbours, every power of two that an f32 has and some
/// beyond, numbers halfway between two f32 numbers with their neighbours, from 0 to 1, and any.
fn doubles(words: &mut Words) -> Vec<Input> {
    let mut bits: Vec<u64> = vec![1, 0x7FF0_0000_0000_0001, 0x7FFF_FFFF_FFFF_FFFF];
    // three halves of 2^-150, and halfway from the largest f32 to 2^128
    bits.extend([0x3698_0000_0000_0000, 0x47EF_FFFF_F000_0000]);
    bits.extend(NAMED_64.iter().flat_map(|x| near_64(x.to_bits())));
    bits.extend((860..1160).flat_map(|field: u64| near_64(field << 52)));
    let ends = [0, 1, 0x007F_FFFF, 0x0080_0000, 0x7F7F_FFFE, 0x7F7F_FFFF];
    let between = (0..RANDOM / 8).map(|_| words.below(0x7F80_0000) as u32);
    let small = (0..RANDOM / 16).map(|n| n as u32);
    let starts: Vec<u32> = ends.into_iter().chain(between).chain(small).collect();
    bits.extend(starts.into_iter().flat_map(halfway));
    for _ in 0..RANDOM / 4 {
        let share = words.word() as f64 / u64::MAX as f64;
        bits.extend([share.to_bits(), words.word()]);
    }
    let signed = bits.into_iter().flat_map(|b| [b, b ^ (1 << 63)]);
    signed.map(|b| (b, 0)).collect()
}

/// What lies halfway from an f32 to the next, and its neighbours.
fn halfway(bits: u32) -> [u64; 3] {
    let above = match bits + 1 {
        0x7F80_0000 => 2f64.powi(128),
        next => f64::from(f32::from_bits(next)),
    };
    near_64(((f64::from(f32::from_bits(bits)) + above) / 2.0).to_bits())
}

/// Words: zeros, ones, single bits, what the shift drops, and any.
fn random_words(words: &mut Words) -> Vec<Input> {
    let mut all = vec![0, u64::MAX, 1 << 63, (1 << 11) - 1, 1 << 11, !0 << 11];
    all.extend((0..64).map(|n| 1u64 << n));
    all.extend((0..64).map(|n| u64::MAX >> n));
    all.extend((0..RANDOM).map(|_| words.word()));
    all.into_iter().map(|w| (w, 0)).collect()
}

/// Shares and capacities: fractions n/c and next to one, with those that do not reach their whole
/// number among them, products around 2^64, and any.
fn shares(words: &mut Words) -> Vec<Input> {
    let mut all: Vec<Input> = Vec::new();
    for c in 1..=256u16 {
        let n = words.between(0, i32::from(c));
        for share in [1.0 / f64::from(c), f64::from(n) / f64::from(c)] {
            all.extend(near_64(share.to_bits()).map(|b| (b, c)));
        }
    }
    let named = [0.0, 0.5, 1.0, 2f64.powi(48), 2f64.powi(64), f64::MAX];
    let beyond = [f64::INFINITY, f64::NAN, f64::MIN_POSITIVE];
    for share in named.into_iter().chain(beyond) {
        for c in [0, 1, 2, 255, 65_535] {
            all.extend(near_64(share.to_bits()).map(|b| (b, c)));
            all.push(((-share).to_bits(), c));
        }
    }
    for _ in 0..RANDOM / 4 {
        let c = words.word() as u16;
        let share = words.word() as f64 / u64::MAX as f64;
        all.extend([(share.to_bits(), c), (words.word(), c)]);
    }
    all
}
