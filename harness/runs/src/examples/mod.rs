//! Document 01's own inputs as runs, each with all queries after it, and makings at their limits.
mod reported;
mod sampled;
mod twice;
mod wide;

pub use reported::all as reported;
pub use sampled::all as sampled;
pub use wide::all as wide;

use crate::generate::Written;
use crate::layout::{Call, Making, Run};

const HALF: u64 = 1 << 63;

/// Bare runs: the list of three adds first, then each cut that document 01 names, then capacities and
/// coordinates at their limits, then makings at theirs.
pub fn bare() -> Vec<Written> {
    let line = |readings: &[&[f32]], words: &[&[u64]]| grown(4, readings, words);
    let mut all = vec![
        line(&[&[0.0], &[8.0], &[2.0]], &[&[], &[HALF], &[HALF, HALF]]),
        line(&[&[0.0], &[8.0]], &[&[], &[0]]),
        line(&[&[0.0], &[8.0]], &[&[], &[u64::MAX]]),
        line(&[&[0.0, 0.0], &[2.0, 6.0]], &[&[], &[HALF / 2]]),
        line(&[&[0.0, 0.0], &[2.0, 6.0]], &[&[], &[HALF]]),
        grown(1, &[&[0.0]], &[&[]]),
        grown(2, &[&[0.0], &[1.0]], &[&[], &[HALF]]),
        line(&[&[1_048_576.0], &[-1_048_576.0]], &[&[], &[HALF]]),
        line(&[&[1_048_577.0], &[-1_048_577.0]], &[&[], &[HALF]]),
    ];
    all.extend(makings().into_iter().map(made));
    all
}

/// Each limit of a making from both sides, and makings with more than one fault.
fn makings() -> Vec<Making> {
    let good = (2, 5, 0.5);
    let channels = [0, 1, 8, 9];
    let capacities = [0, 1, 2, 256, 257];
    let mut all = vec![
        (9, 1, 2.0),
        (1, 257, f64::NAN),
        (u32::MAX, 4, -1.0),
        (1, u32::MAX, 0.5),
    ];
    all.extend(channels.map(|channels| (channels, good.1, good.2)));
    all.extend(capacities.map(|capacity| (good.0, capacity, good.2)));
    all.extend(SHARES.map(|share| (good.0, good.1, share)));
    all.into_iter()
        .map(|(channels, capacity, share)| Making::bare(channels, capacity, share))
        .collect()
}

/// Shares at the ends of their range, from both sides, and what is no share.
const SHARES: [f64; 10] = [
    0.0,
    -0.0,
    5e-324,
    -5e-324,
    1.0,
    1.0f64.next_up(),
    f64::NAN,
    -f64::NAN,
    f64::INFINITY,
    f64::NEG_INFINITY,
];

/// A making, and two queries that no fresh tree answers; the box's answer is as long as the
/// channels say, also where they are out of range.
fn made(making: Making) -> Written {
    let calls = vec![Call::Branch { id: 0 }, Call::Box { id: 0 }];
    Written::of(Run { making, calls })
}

/// A run that writes the readings at 0, 1, ..., adds each with its words and asks for everything.
fn grown(capacity: u32, readings: &[&[f32]], words: &[&[u64]]) -> Written {
    let making = Making::bare(readings[0].len() as u32, capacity, 1.0);
    let adds = words.iter().zip(0..).map(|(words, index)| Call::Add {
        index,
        words: words.to_vec(),
    });
    let calls = puts(readings).into_iter().chain(adds);
    let calls = calls.chain(all_queries(capacity + readings.len() as u32));
    Written::of(Run {
        making,
        calls: calls.collect(),
    })
}

/// Puts of the readings at 0, 1, ...
fn puts(readings: &[&[f32]]) -> Vec<Call> {
    let put = |(reading, index): (&&[f32], u32)| Call::Put {
        index,
        coordinates: reading.iter().map(|x| x.to_bits()).collect(),
    };
    readings.iter().zip(0..).map(put).collect()
}

/// Every query for every id below `end`.
fn all_queries(end: u32) -> impl Iterator<Item = Call> {
    let about = |id| [Call::Copies { id }, Call::Branch { id }, Call::Box { id }];
    (0..end).flat_map(about)
}
