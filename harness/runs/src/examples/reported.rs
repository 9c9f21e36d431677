//! Document 01's walk reports, and others at an edge: lone leaves, empty trees, rows lent, longest sums.
use super::{puts, twice, HALF};
use crate::generate::Written;
use crate::layout::{Call, Making, Run};
use crate::refusals::EDGE;

/// At every cached share a box from 0 to 8, as the Rust has more than one way to a box; then the largest
/// sums that readings have, and values held more than once.
pub fn all() -> Vec<Written> {
    let shares = [0.0, 0.25, 0.5, 1.0];
    let mut all: Vec<Written> = shares.into_iter().map(one_box).collect();
    all.extend(shares.into_iter().map(longest_sums));
    all.extend(twice::all());
    all
}

pub(super) fn report(rows: u32, query: &[f32]) -> Call {
    Call::Report {
        rows,
        coordinates: query.iter().map(|x| x.to_bits()).collect(),
    }
}

fn add(index: u32) -> Call {
    Call::Add {
        index,
        words: vec![HALF; 2],
    }
}

/// Reports on an empty tree, on a lone leaf, on a box from 0 to 8, and on the emptied tree; with each
/// number of rows, and with each refusal.
fn one_box(share: f64) -> Written {
    let queries = [12.0, 8.0, 4.0, 0.0, -1.0, 1_048_576.0];
    let every = |most: u32| {
        let of = move |x: f32| (0..=most).map(move |rows| report(rows, &[x]));
        queries.into_iter().flat_map(of)
    };
    let refused = [
        report(9, &[]),
        report(0, &[0.5, 1.0]),
        report(9, &[0.5]),
        report(0, &[-0.0]),
    ];
    let mut calls = puts(&[&[0.0], &[8.0]]);
    calls.extend(every(1).chain(refused.clone()));
    calls.push(add(0));
    calls.extend(every(2));
    calls.push(add(0));
    calls.extend(every(2));
    calls.push(add(1));
    calls.extend(every(4).chain(refused));
    calls.extend([0, 0, 1].map(|index| Call::Delete { index }));
    calls.extend(every(1));
    Written::of(Run {
        making: Making::bare(1, 4, share),
        calls,
    })
}

/// Eight channels from end to end: distances that sum to 2^24, and sides that do.
fn longest_sums(share: f64) -> Written {
    let (low, high) = (-EDGE as f32, EDGE as f32);
    let beside = [high, high, high, high, high, high, high, high - 1.0];
    let readings: [&[f32]; 4] = [&[low; 8], &beside, &[high; 8], &[0.0; 8]];
    let mut calls = puts(&readings);
    for index in 0..4 {
        calls.push(Call::Add {
            index,
            words: vec![HALF + 12_345; 4],
        });
        for query in readings {
            calls.push(report(5, query));
        }
    }
    for index in [0, 3, 1] {
        calls.push(Call::Delete { index });
        for query in readings {
            calls.push(report(4, query));
        }
    }
    Written::of(Run {
        making: Making::bare(8, 4, share),
        calls,
    })
}
