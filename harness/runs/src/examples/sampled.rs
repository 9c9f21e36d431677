//! Document 01's samples, and others that stand at an edge of what an arrival is accepted for.
use super::{all_queries, puts, HALF, SHARES};
use crate::generate::Written;
use crate::layout::{Call, Making, Run};

/// The starred samples first, then evictions among equals, equal readings, weights that are none, words
/// too few, then makings at their limits.
pub fn all() -> Vec<Written> {
    let line: [&[f32]; 8] = [
        &[0.0],
        &[8.0],
        &[4.0],
        &[3.0],
        &[-5.0],
        &[6.0],
        &[7.0],
        &[1.0],
    ];
    let same: [&[f32]; 4] = [&[2.0], &[2.0], &[2.0], &[9.0]];
    let mut all = vec![
        arrived(2, &line[..3], &[-1.0, -3.0, -1.0]),
        arrived(2, &line[..3], &[-1.0, -3.0, -2.0]),
        arrived(3, &line, &[0.0, 0.0, 0.0, -1.0, -1.0, -1.0, -2.0, -2.0]),
        arrived(2, &same, &[-1.0, -2.0, -3.0, -4.0]),
        arrived(3, &same, &[-1.0, -2.0, -3.0, 5.0]),
        arrived(2, &line[..3], &[f32::INFINITY, f32::NEG_INFINITY, f32::NAN]),
        arrived(2, &line[..3], &[0.0, -0.0, -1.0]),
        refused(),
    ];
    all.extend(makings().into_iter().map(made));
    all
}

fn arrival(index: u32, weight: f32, words: usize) -> Call {
    Call::Arrival {
        index,
        weight: weight.to_bits(),
        start: 0,
        words: vec![HALF; words],
    }
}

/// A run with initial share 1 that writes the readings at 0, 1, ..., lets each arrive with its weight, and
/// asks for the sample after each and for everything at the end.
fn arrived(capacity: u32, readings: &[&[f32]], weights: &[f32]) -> Written {
    let making = Making::sampled(readings[0].len() as u32, capacity, 1.0, 1.0);
    let mut calls = puts(readings);
    for (weight, index) in weights.iter().zip(0..) {
        calls.extend([arrival(index, *weight, capacity as usize), Call::Sample]);
    }
    calls.extend(all_queries(capacity + readings.len() as u32));
    Written::of(Run { making, calls })
}

/// Arrivals refused for each cause, alone and with those after it in document 01's order.
fn refused() -> Written {
    let none = f32::NAN;
    let mut calls = puts(&[&[0.0], &[1.0]]);
    calls.extend([
        arrival(1024, none, 0),
        arrival(u32::MAX, 0.0, 4),
        arrival(2, none, 0),
        arrival(1023, 0.0, 4),
        arrival(0, none, 0),
        arrival(0, none, 4),
        arrival(0, 0.0, 0),
        arrival(0, 0.0, 3),
        Call::Sample,
        arrival(0, 0.0, 4),
        arrival(1, 0.0, 5),
        arrival(0, 0.0, 3),
        Call::Sample,
    ]);
    calls.extend(all_queries(7));
    Written::of(Run {
        making: Making::sampled(1, 4, 0.5, 0.5),
        calls,
    })
}

/// Each limit of a making from both sides, and makings with more than one fault.
fn makings() -> Vec<Making> {
    let mut all = vec![
        Making::sampled(9, 1, 2.0, 2.0),
        Making::sampled(1, 257, f64::NAN, -1.0),
        Making::sampled(1, 4, -1.0, 2.0),
        Making::sampled(u32::MAX, u32::MAX, 0.5, 0.5),
        Making::sampled(8, 256, 1.0, 1.0),
    ];
    all.extend([0, 1, 8, 9].map(|channels| Making::sampled(channels, 5, 0.5, 0.5)));
    all.extend([0, 1, 2, 256, 257].map(|capacity| Making::sampled(2, capacity, 0.5, 0.5)));
    all.extend(SHARES.map(|share| Making::sampled(2, 5, share, 0.5)));
    all.extend(SHARES.map(|initial| Making::sampled(2, 5, 0.5, initial)));
    all
}

/// A making, and what no fresh tree has; the sample's answer is as long as the capacity says, also where
/// it is out of range.
pub(super) fn made(making: Making) -> Written {
    let calls = vec![
        Call::Sample,
        Call::Branch { id: 0 },
        Call::Box { id: 0 },
        Call::Report {
            rows: 2,
            coordinates: vec![0],
        },
    ];
    Written::of(Run { making, calls })
}
