//! The leaves that take boxes, held to the unchanged Rust's `BoundingBox`.
use crate::drawn_boxes::{any, around, coordinates, finite, none, not_nan, row, Given};
use crate::leaf::{Leaf, Wrong};
use crate::port::*;
use floats::{pattern_32, pattern_64};
use oracle::rcflib::samplerplustree::boundingbox::BoundingBox;
use oracle::Words;

/// Ends, where the leaf gives a box, and a number or a truth value.
#[derive(Debug, PartialEq)]
pub struct Said {
    ends: [[u64; WIDTH]; 2],
    number: u64,
}

pub fn leaves() -> Vec<Leaf<Given, Said>> {
    vec![
        leaf(
            "BoundingBox::new",
            "the Rust's",
            any,
            |g| of_box(&around(g.channels, &g.point, &g.other), 0),
            |g| {
                let (mut lower, mut upper) = (EMPTY, EMPTY);
                sicklephlox_box_around(&mut lower, &mut upper, &g.point, &g.other);
                ends(&lower, &upper, 0)
            },
            vec![
                ("the first of equal ends", |g| {
                    let lower = both(&g.point, &g.other, |x, y| if y < x { y } else { x });
                    let upper = both(&g.point, &g.other, |x, y| if y > x { y } else { x });
                    ends(&lower, &upper, 0)
                }),
                ("NaN passed over", |g| {
                    let lower = both(&g.point, &g.other, f32::min);
                    let upper = both(&g.point, &g.other, f32::max);
                    ends(&lower, &upper, 0)
                }),
            ],
        ),
        leaf(
            "check_contains_and_add_point",
            "the Rust's, on coordinates",
            coordinates,
            rust_add_point,
            port_add_point,
            vec![
                ("a face taken for outside", |g| {
                    let grown = rust_add_point(g);
                    let held = in_channels(&g, |lo, p, hi| lo < p && p < hi);
                    Said {
                        number: held.into(),
                        ..grown
                    }
                }),
                ("the box left as it was", |g| Said {
                    number: rust_add_point(g).number,
                    ..ends(&g.lower, &g.upper, 0)
                }),
            ],
        ),
        leaf(
            "check_contains_and_add_point, the ends",
            "the Rust's, on any floats",
            any,
            rust_add_point,
            port_add_point,
            vec![("NaN passed over", |g| {
                let lower = both(&g.lower, &g.point, f32::min);
                let upper = both(&g.upper, &g.point, f32::max);
                ends(&lower, &upper, rust_add_point(g).number)
            })],
        ),
        leaf(
            "add_box",
            "the Rust's, on coordinates",
            coordinates,
            rust_add_box,
            port_add_box,
            vec![("grown by the other's lower ends", |g| {
                let mut grown = of(&g);
                let other = around(g.channels, &g.point, &g.other);
                let lower = other.get_min_values();
                let held = grown.check_contains_and_add_point(lower);
                of_box(&grown, held.into())
            })],
        ),
        leaf(
            "add_box, the ends",
            "the Rust's, on any floats",
            any,
            rust_add_box,
            port_add_box,
            vec![("NaN passed over", |g| {
                let other = around(g.channels, &g.point, &g.other);
                let lower = both(&g.lower, &row(other.get_min_values()), f32::min);
                let upper = both(&g.upper, &row(other.get_max_values()), f32::max);
                ends(&lower, &upper, rust_add_box(g).number)
            })],
        ),
        leaf(
            "contains",
            "whether an end of the Rust's box moves as it grows, on floats but NaN",
            not_nan,
            |g| number((!moved_by_point(&g)).into()),
            |g| number(sicklephlox_contains(&g.lower, &g.upper, &g.point).into()),
            vec![
                ("a face taken for outside", |g| {
                    number(in_channels(&g, |lo, p, hi| lo < p && p < hi).into())
                }),
                ("the last channel left out", |g| {
                    let mut g = g;
                    g.channels -= 1;
                    number(in_channels(&g, |lo, p, hi| lo <= p && p <= hi).into())
                }),
            ],
        ),
        leaf(
            "strictly_contains",
            "the comparisons of check_strictly_contains, on floats but NaN",
            not_nan,
            |g| number(in_channels(&g, |x, y, z| !(x >= y || y >= z)).into()),
            |g| number(port_strictly(&g, dimensions(&g)).into()),
            vec![
                ("a face taken for inside", |g| {
                    number(in_channels(&g, |lo, p, hi| lo <= p && p <= hi).into())
                }),
                ("padding counted", |g| {
                    number(port_strictly(&g, WIDTH).into())
                }),
            ],
        ),
        leaf(
            "get_range_sum",
            "the Rust's, on finite floats",
            finite,
            |g| number(pattern_64(of(&g).get_range_sum())),
            |g| number(pattern_64(sicklephlox_range_sum(&g.lower, &g.upper))),
            vec![
                ("added up backwards", |g| {
                    let sides = both(&g.upper, &g.lower, |y, x| y - x);
                    let sum: f64 = sides.iter().rev().map(|side| f64::from(*side)).sum();
                    number(pattern_64(sum))
                }),
                ("differences not rounded to f32", |g| {
                    let both = g.upper.iter().zip(&g.lower);
                    let sum: f64 = both.map(|(y, x)| f64::from(*y) - f64::from(*x)).sum();
                    number(pattern_64(sum))
                }),
            ],
        ),
    ]
}

const EMPTY: Row = [0.0; WIDTH];

fn leaf(
    name: &'static str,
    held_to: &'static str,
    draw: fn(&mut Words) -> Given,
    right: fn(Given) -> Said,
    port: fn(Given) -> Said,
    wrong: Vec<Wrong<Given, Said>>,
) -> Leaf<Given, Said> {
    Leaf {
        name,
        held_to,
        first: none,
        draw,
        right,
        port,
        wrong,
    }
}

fn number(number: u64) -> Said {
    ends(&EMPTY, &EMPTY, number)
}

fn ends(lower: &Row, upper: &Row, number: u64) -> Said {
    Said {
        ends: [lower.map(pattern_32), upper.map(pattern_32)],
        number,
    }
}

fn of_box(given: &BoundingBox, number: u64) -> Said {
    let (lower, upper) = (given.get_min_values(), given.get_max_values());
    ends(&row(lower), &row(upper), number)
}

/// The Rust's box of these ends.
fn of(g: &Given) -> BoundingBox {
    around(g.channels, &g.lower, &g.upper)
}

/// The Rust tells by its rounded range sums whether the box held the point. On coordinates that is so
/// exactly where no end moves, and elsewhere nothing is told.
fn rust_add_point(g: Given) -> Said {
    let mut grown = of(&g);
    let held = grown.check_contains_and_add_point(&g.point[..g.channels]);
    of_box(&grown, (g.whole && held).into())
}

fn port_add_point(g: Given) -> Said {
    let (mut lower, mut upper) = (g.lower, g.upper);
    let held = sicklephlox_add_point(&mut lower, &mut upper, &g.point);
    ends(&lower, &upper, (g.whole && held).into())
}

/// Whether growing by the point moves an end. A zero of the other sign is the same end.
fn moved_by_point(g: &Given) -> bool {
    let before = of(g);
    let mut grown = before.clone();
    grown.check_contains_and_add_point(&g.point[..g.channels]);
    before.get_min_values() != grown.get_min_values()
        || before.get_max_values() != grown.get_max_values()
}

fn rust_add_box(g: Given) -> Said {
    let mut grown = of(&g);
    let before = grown.get_range_sum();
    grown.add_box(&around(g.channels, &g.point, &g.other));
    let held = before == grown.get_range_sum();
    of_box(&grown, (g.whole && held).into())
}

fn port_add_box(g: Given) -> Said {
    let (mut lower, mut upper) = (g.lower, g.upper);
    let other = around(g.channels, &g.point, &g.other);
    let (low, high) = (row(other.get_min_values()), row(other.get_max_values()));
    let held = sicklephlox_add_box(&mut lower, &mut upper, &low, &high);
    ends(&lower, &upper, (g.whole && held).into())
}

fn port_strictly(g: &Given, dimensions: usize) -> bool {
    sicklephlox_strictly_contains(&g.lower, &g.upper, &g.point, dimensions)
}

/// The channels, or a number beyond them where none is padding.
fn dimensions(g: &Given) -> usize {
    match (g.channels, g.whole) {
        (WIDTH, true) => usize::MAX,
        (channels, _) => channels,
    }
}

/// Whether it is so in each channel, of lower end, point and upper end.
fn in_channels(g: &Given, so: fn(f32, f32, f32) -> bool) -> bool {
    (0..g.channels).all(|i| so(g.lower[i], g.point[i], g.upper[i]))
}

fn both(x: &Row, y: &Row, of: fn(f32, f32) -> f32) -> Row {
    std::array::from_fn(|i| of(x[i], y[i]))
}
