//! The leaves that take a number: the tests on floats, the factor of a word, narrowing, the cached part.
//! They are held to the Rust language itself.
use crate::leaf::{Leaf, Wrong};
use crate::port::*;
use floats::{double, pattern_32, pattern_64, single, Input, FUNCTIONS};

const EDGE: f32 = 1_048_576.0;

pub fn leaves() -> Vec<Leaf<Input, u64>> {
    vec![
        leaf(
            "is_coordinate",
            "`trunc` and comparisons",
            |x| sicklephlox_is_coordinate(single(x)).into(),
            vec![
                ("halves taken", |x| {
                    let x = single(x);
                    (x * 2.0 == (x * 2.0).trunc() && x.abs() <= EDGE && !is_minus_zero(x)).into()
                }),
                ("2^20 refused", |x| {
                    let x = single(x);
                    (x == x.trunc() && x.abs() < EDGE && !is_minus_zero(x)).into()
                }),
                ("minus zero taken", |x| {
                    let x = single(x);
                    (x == x.trunc() && x.abs() <= EDGE).into()
                }),
            ],
        ),
        leaf(
            "is_weight",
            "`is_finite`",
            |x| sicklephlox_is_weight(single(x)).into(),
            vec![
                ("minus zero taken", |x| single(x).is_finite().into()),
                ("infinities taken", |x| {
                    let x = single(x);
                    (!x.is_nan() && !is_minus_zero(x)).into()
                }),
            ],
        ),
        leaf(
            "is_share",
            "a range's `contains`",
            |x| sicklephlox_is_share(double(x)).into(),
            vec![
                ("1 refused", |x| (0.0..1.0).contains(&double(x)).into()),
                ("NaN taken", |x| {
                    let x = double(x);
                    (x.is_nan() || (0.0..=1.0).contains(&x)).into()
                }),
                ("minus zero refused", |x| {
                    let x = double(x);
                    (x.is_sign_positive() && x <= 1.0).into()
                }),
            ],
        ),
        leaf(
            "factor",
            "a division by 2^53",
            |(word, _)| pattern_64(sicklephlox_factor(word)),
            vec![
                ("the lower 53 bits", |(word, _)| {
                    pattern_64((word % (1 << 53)) as f64 / 2f64.powi(53))
                }),
                ("all 64 bits, rounded", |(word, _)| {
                    pattern_64(word as f64 / 2f64.powi(64))
                }),
            ],
        ),
        leaf(
            "narrow",
            "`as f32`",
            |x| pattern_32(sicklephlox_narrow(double(x))),
            vec![
                ("a tie away from 0", |x| pattern_32(tie_away(double(x)))),
                ("digits cut off", |x| pattern_32(cut_off(double(x)))),
                ("subnormal numbers as 0", |x| {
                    let x = double(x) as f32;
                    pattern_32(if x.is_subnormal() { x * 0.0 } else { x })
                }),
            ],
        ),
        leaf(
            "cached_part",
            "a product `as usize`",
            |x| sicklephlox_cached_part(double(x), x.1) as u64,
            vec![
                ("to the nearest", |x| product(x).round() as u64),
                ("a share that reaches its number", |x| {
                    product(x).next_up() as u64
                }),
                ("2^64 and above as 0", |x| match product(x) {
                    p if p >= 2f64.powi(64) => 0,
                    p => p as u64,
                }),
                ("below 0 wrapped", |x| match product(x) {
                    p if p < 0.0 => p as i64 as u64,
                    p => p as u64,
                }),
            ],
        ),
    ]
}

/// The leaf of a name, with inputs and answers from the list of functions.
fn leaf(
    name: &'static str,
    held_to: &'static str,
    port: fn(Input) -> u64,
    wrong: Vec<Wrong<Input, u64>>,
) -> Leaf<Input, u64> {
    let found = FUNCTIONS.iter().find(|function| function.name == name);
    let function = found.expect("a function of floats");
    Leaf {
        name,
        held_to,
        first: function.inputs,
        draw: function.draw,
        right: function.answer,
        port,
        wrong,
    }
}

fn is_minus_zero(x: f32) -> bool {
    x == 0.0 && x.is_sign_negative()
}

fn product(x: Input) -> f64 {
    double(x) * f64::from(x.1)
}

/// The f32 next to x, no further from 0 than x.
fn cut_off(x: f64) -> f32 {
    let nearest = x as f32;
    if f64::from(nearest).abs() > x.abs() {
        return f32::from_bits(nearest.to_bits() - 1);
    }
    nearest
}

/// x to the nearest f32, but a tie to the one further from 0.
fn tie_away(x: f64) -> f32 {
    let near = cut_off(x);
    let far = f32::from_bits(near.to_bits().wrapping_add(1));
    let half = (f64::from(near) + f64::from(far)) / 2.0;
    if x == half {
        far
    } else {
        x as f32
    }
}
