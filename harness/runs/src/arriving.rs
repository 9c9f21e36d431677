//! What arrivals are made from: initial shares, words for the starting chance, and weights. Byte runs
//! and the recorded samples draw from it alike.
use crate::refusals::is_weight;
use oracle::{factor, Words};

/// Which weights a sequence of arrivals has.
#[derive(Clone, Copy)]
pub enum Weights {
    Equal,
    FewValues,
    EverySize,
    Denormal,
    Near,
    Rising,
    Falling,
    /// Minus zero, infinities and NaN too.
    AnyPattern,
}

impl Weights {
    pub const ALL: [Weights; 8] = [
        Weights::Equal,
        Weights::FewValues,
        Weights::EverySize,
        Weights::Denormal,
        Weights::Near,
        Weights::Rising,
        Weights::Falling,
        Weights::AnyPattern,
    ];
}

/// The pattern that stands for every NaN.
pub const NAN: u32 = 0x7FC0_0000;
/// Bits of no weight.
const ODD: [u32; 6] = [0, 1 << 31, 0x7F80_0000, 0xFF80_0000, NAN, 0xFFC0_0001];
/// Rising and falling weights begin again after so many, before their patterns run out.
const RISES: u32 = 20_000;
const FALLS: u32 = 2_000;

/// The weights of one sequence.
pub struct Weighing {
    weights: Weights,
    /// The pattern that weights of some kinds are made from.
    base: u32,
    drawn: u32,
}

impl Weighing {
    pub fn new(weights: Weights, words: &mut Words) -> Self {
        Weighing {
            weights,
            base: finite(words),
            drawn: 0,
        }
    }

    /// A weight for the next arrival, where `top` is the largest held. One in five is that one or the
    /// float next to it.
    pub fn next(&mut self, top: Option<f32>, words: &mut Words) -> f32 {
        self.drawn += 1;
        if let Some(top) = top.filter(|_| words.once_in(5)) {
            let bits = top.to_bits().wrapping_add([0, 1, u32::MAX][words.below(3)]);
            if is_weight(bits) {
                return f32::from_bits(bits);
            }
        }
        let bits = self.pattern(words);
        match self.weights {
            Weights::AnyPattern => f32::from_bits(bits),
            _ if is_weight(bits) => f32::from_bits(bits),
            _ => 0.0,
        }
    }

    fn pattern(&self, words: &mut Words) -> u32 {
        match self.weights {
            Weights::Equal => self.base,
            Weights::FewValues => (words.between(-2, 2) as f32 * 0.5).to_bits(),
            Weights::EverySize => finite(words),
            Weights::Denormal => {
                let sign = (words.below(2) as u32) << 31;
                sign + ((words.word() as u32 & 0x007F_FFFF) >> (10 * words.below(3)))
            }
            Weights::Near => (self.base & 0xFFFF_FFF0) + words.below(8) as u32,
            // from the least negative pattern down, or from a small positive number up
            Weights::Rising => {
                0x3000_0000 + ((self.drawn % RISES) << 16) + words.below(1 << 16) as u32
            }
            Weights::Falling => {
                0x8000_0001 + ((self.drawn % FALLS) << 20) + words.below(1 << 20) as u32
            }
            Weights::AnyPattern => match words.below(4) {
                0 => words.one_of(&ODD),
                _ => words.word() as u32,
            },
        }
    }
}

/// An initial share: 0, 1/8, 1/2, 1, and odd ones.
pub fn initial_share(capacity: usize, words: &mut Words) -> f64 {
    let part = words.below(capacity + 1) as f64 / capacity as f64;
    match words.below(12) {
        0 => 0.0,
        1 => 0.125,
        2 => 0.5,
        3 => 1.0,
        4 => part,
        5 => f64::from_bits(part.to_bits().saturating_sub(1)),
        6 => f64::from_bits(part.to_bits() + 1).min(1.0),
        7 => factor(words.word()),
        8 => f64::from_bits(1f64.to_bits() - 1),
        9 => f64::from_bits(1 + words.below(3) as u64),
        10 => -0.0,
        _ => words.one_of(&[1.0 / 3.0, 0.1, 0.7, 0.99]),
    }
}

/// The word for the starting chance: any, at an end, or with a factor at the chance or `within` so many
/// of it.
pub fn start_word(chance: f64, within: usize, words: &mut Words) -> u64 {
    match words.below(6) {
        0 => words.one_of(&[0, u64::MAX, 2047, 1 << 63]),
        1 | 2 => {
            let factor = (chance * (1u64 << 53) as f64) as u64;
            let next = factor + words.below(2 * within + 1) as u64;
            let next = next.saturating_sub(within as u64).min((1 << 53) - 1);
            (next << 11) + words.below(1 << 11) as u64
        }
        _ => words.word(),
    }
}

/// Bits that are no weight.
pub fn bad_weight(words: &mut Words) -> u32 {
    let nan = 0x7F80_0001 | words.word() as u32;
    words.one_of(&[ODD[1], ODD[1], ODD[2], ODD[3], NAN, ODD[5], nan])
}

/// The pattern of a finite weight of any size and sign.
fn finite(words: &mut Words) -> u32 {
    loop {
        let bits = words.word() as u32;
        if is_weight(bits) {
            return bits;
        }
    }
}
