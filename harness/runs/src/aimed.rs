//! Words aimed at a place where a rounding or an end decides: the product of factor and sum of
//! sides meets a target, or lies one factor beside it.
use oracle::{factor, Words};

/// What the product is aimed at, on one of the sides.
#[derive(Clone, Copy)]
pub enum Aim {
    /// The rest lies halfway between two f32 numbers.
    NarrowingTie,
    /// Lower end plus rest lies halfway between two f32 numbers.
    AddingTie,
    /// The product ends exactly with a side.
    SideEnd,
    /// The rest is about to reach the upper end.
    UpperEnd,
    /// The cut lies on an end of the box before the point is in it, where parting turns.
    BoxEnd,
}

/// A box and a point, in whole numbers.
pub struct Place<'a> {
    pub low: &'a [i32],
    pub high: &'a [i32],
    pub point: &'a [i32],
}

/// A side of the box with the point in it: its lower end, its length, the lengths before it, and
/// the ends without the point.
struct Side {
    low: i32,
    length: i32,
    before: i32,
    ends: [i32; 2],
}

/// The non-zero sides in channel order, and their sum. The sum is at most 2^26.
fn sides(place: &Place) -> (Vec<Side>, i32) {
    let mut found = Vec::new();
    let mut before = 0;
    for ((&from, &to), &x) in place.low.iter().zip(place.high).zip(place.point) {
        let (low, high) = (from.min(x), to.max(x));
        if low < high {
            found.push(Side {
                low,
                length: high - low,
                before,
                ends: [from, to],
            });
        }
        before += high - low;
    }
    (found, before)
}

/// An aimed word, unless all sides are zero.
pub fn word(place: &Place, aim: Aim, words: &mut Words) -> Option<u64> {
    let (sides, sum) = sides(place);
    if sides.is_empty() {
        return None;
    }
    let side = &sides[words.below(sides.len())];
    let length = f64::from(side.length);
    let rest = match aim {
        Aim::NarrowingTie => narrowing_tie(length, words),
        Aim::AddingTie => adding_tie(side, words),
        Aim::SideEnd => length,
        Aim::UpperEnd => length - two_to(-words.between(1, 28)),
        Aim::BoxEnd => f64::from(words.one_of(&side.ends) - side.low),
    };
    let least = least_factor(f64::from(side.before) + rest, f64::from(sum));
    let number = least as i64 + i64::from(words.between(-1, 1));
    let number = number.clamp(0, (1 << 53) - 1) as u64;
    Some(number << 11 | words.word() >> 53)
}

/// Ones or one pattern in the highest bits, zeros or ones below.
pub fn top_bits(words: &mut Words) -> u64 {
    let bits = 1 + words.below(12) as u32;
    let pattern = words.word() >> (64 - bits) << (64 - bits);
    let below = words.one_of(&[0, u64::MAX >> bits]);
    words.one_of(&[pattern, u64::MAX << (64 - bits)]) | below
}

/// A number below `length` halfway between two f32 neighbours.
fn narrowing_tie(length: f64, words: &mut Words) -> f64 {
    let size = two_to(-words.between(1, 12)) * length;
    let unit = two_to(exponent(size) - 24);
    let odd = (1 << 24) + 2 * words.between(0, (1 << 23) - 1) + 1;
    f64::from(odd) * unit
}

/// A rest that an f32 holds and that, added to the lower end, lies halfway between two f32
/// neighbours.
fn adding_tie(side: &Side, words: &mut Words) -> f64 {
    let whole = match words.below(3) {
        0 => 0,
        1 => words.between(0, (side.length - 1).min(8)),
        _ => words.between(0, side.length - 1),
    };
    let size = f64::from((side.low + whole).unsigned_abs().max(1));
    let half_unit = two_to(exponent(size) - 24);
    let steps = (1.0 / half_unit) as i32;
    let odd = 2 * words.between(0, steps / 2 - 1) + 1;
    f64::from(whole) + f64::from(odd) * half_unit
}

/// 2 to a power, exactly and alike on every machine.
fn two_to(power: i32) -> f64 {
    f64::from_bits(((1023 + power) as u64) << 52)
}

/// The largest power with 2 to it not above `x`, which is positive.
fn exponent(x: f64) -> i32 {
    (x.to_bits() >> 52) as i32 - 1023
}

/// The least number k with k * 2^-53 times `sum`, rounded as the Rust rounds it, not below
/// `target`.
fn least_factor(target: f64, sum: f64) -> u64 {
    let product = |k: u64| factor(k << 11) * sum;
    let top = (1u64 << 53) - 1;
    let mut k = ((target / sum * (1u64 << 53) as f64) as u64).min(top);
    while k > 0 && product(k - 1) >= target {
        k -= 1;
    }
    while k < top && product(k) < target {
        k += 1;
    }
    k
}
