//! Trees of more than 8 channels: makings at the limit of 32, and reports on boxes so far from their queries that f32 numbers round the sum
//! of distances.
use super::reported::report;
use super::{made, puts, sampled, HALF};
use crate::generate::Written;
use crate::layout::{Call, Making, Run};
use crate::refusals::EDGE;

/// Makings first, then at 9 channels, the fewest that round, and at more a box in the lowest corner of the whole range, in the
/// highest, and in one between, so that distances lie above, below and on both sides; last a sum that every rounding moves the same way.
pub fn all() -> Vec<Written> {
    let bare = [(32, 5, 0.5), (33, 5, 0.5), (33, 1, 2.0), (32, 256, 1.0)];
    let bare = bare.map(|(channels, capacity, share)| Making::bare(channels, capacity, share));
    let sampling = [
        Making::sampled(32, 5, 0.5, 0.5),
        Making::sampled(33, 5, 0.5, 0.5),
        Making::sampled(33, 1, 2.0, 2.0),
        Making::sampled(32, 256, 1.0, 1.0),
    ];
    let mut all: Vec<Written> = bare.into_iter().map(made).collect();
    all.extend(sampling.map(sampled::made));
    for channels in [9, 12, 17, 32] {
        for upper in [0, u32::MAX, 0x5555_5555] {
            all.extend([0.0, 1.0].map(|share| cornered(channels, upper, share)));
        }
    }
    for side in [-1.0, 1.0] {
        all.extend([0.0, 1.0].map(|share| furthest(side, share)));
    }
    all
}

/// Distances of 32 channels whose sum comes out 40 below the whole-number sum: from 2^24 on each of the first takes 1 off, from 2^25 on
/// each of the others 2.
fn furthest(side: f32, share: f64) -> Written {
    let reading = |first: i32| -> Vec<f32> {
        let beside = |channel| match channel {
            0 => first,
            1..16 => 3,
            _ => 6,
        };
        let x = |channel| -side * (EDGE - beside(channel)) as f32;
        (0..32).map(x).collect()
    };
    let mut calls = puts(&[&reading(3), &reading(2)]);
    calls.extend([0, 1].map(|index| Call::Add {
        index,
        words: vec![HALF],
    }));
    calls.push(report(2, &[side * EDGE as f32; 32]));
    Written::of(Run {
        making: Making::bare(32, 4, share),
        calls,
    })
}

/// Four readings next to a corner, each followed by reports of queries next to the corner opposite.
fn cornered(channels: u32, upper: u32, share: f64) -> Written {
    let beside = |n: u32, corner: u32| -> Vec<f32> {
        let coordinate = |channel: u32| {
            let x = (EDGE - (n * (channel + 2) % 7) as i32) as f32;
            match corner >> channel & 1 {
                0 => -x,
                _ => x,
            }
        };
        (0..channels).map(coordinate).collect()
    };
    let readings: Vec<Vec<f32>> = (0..4).map(|n| beside(n, upper)).collect();
    let readings: Vec<&[f32]> = readings.iter().map(Vec::as_slice).collect();
    let mut calls = puts(&readings);
    for index in 0..4 {
        calls.push(Call::Add {
            index,
            words: vec![HALF + 12_345; 4],
        });
        calls.extend((0..4).map(|n| report(4, &beside(n, !upper))));
    }
    Written::of(Run {
        making: Making::bare(channels, 4, share),
        calls,
    })
}
