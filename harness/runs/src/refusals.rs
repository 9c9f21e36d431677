//! Document 01's conditions that need no tree: what a making, a reading and a weight are refused for.
use crate::layout::Making;

pub const CHANNELS: u32 = 1;
pub const CAPACITY: u32 = 2;
pub const SHARE: u32 = 3;
pub const INITIAL_SHARE: u32 = 4;
pub const INDEX: u32 = 5;
pub const COORDINATE_COUNT: u32 = 6;
pub const COORDINATE: u32 = 7;
pub const IS_LEAF: u32 = 8;
pub const NEVER_WRITTEN: u32 = 9;
pub const FULL: u32 = 10;
pub const TOO_FEW_WORDS: u32 = 11;
pub const EMPTY: u32 = 12;
pub const NOT_HELD: u32 = 13;
pub const WEIGHT: u32 = 14;
/// Too few rows lent to a report, or too few answer bytes to a run.
pub const TOO_FEW_LENT: u32 = 15;
pub const NO_SUCH_NODE: u32 = 16;
pub const OUT_OF_LAYOUT: u32 = 17;

/// No tree has more channels.
pub const MOST_CHANNELS: u32 = 32;
/// The largest coordinate; the least is minus this.
pub const EDGE: i32 = 1 << 20;
/// No tree holds more copies.
pub const MOST_COPIES: usize = 65_535;

/// Why a making is refused, if it is.
pub fn making_refusal(making: &Making) -> Option<u32> {
    let in_range = |share: u64| (0.0..=1.0).contains(&f64::from_bits(share));
    if !(1..=MOST_CHANNELS).contains(&making.channels) {
        Some(CHANNELS)
    } else if !(2..=256).contains(&making.capacity) {
        Some(CAPACITY)
    } else if !in_range(making.share) {
        Some(SHARE)
    } else if !making.initial.is_none_or(in_range) {
        Some(INITIAL_SHARE)
    } else {
        None
    }
}

/// Whether these bits are a coordinate: a whole number from -2^20 to 2^20, not minus zero.
pub fn is_coordinate(bits: u32) -> bool {
    let x = f32::from_bits(bits);
    let edge = EDGE as f32;
    (-edge..=edge).contains(&x) && x.fract() == 0.0 && bits != (-0.0f32).to_bits()
}

/// Whether these bits are a weight: finite, not minus zero.
pub fn is_weight(bits: u32) -> bool {
    f32::from_bits(bits).is_finite() && bits != (-0.0f32).to_bits()
}
