//! Runs that hold as many copies as a tree may, 65,535, and ask for more.
use super::Written;
use crate::layout::{Call, Making, Run};
use crate::refusals::MOST_COPIES;

const HALF: u64 = 1 << 63;

/// One leaf of all copies, then a copy more and another value: both refused.
pub fn lone_leaf_to_the_limit() -> Written {
    let adds = vec![add(0); MOST_COPIES];
    limit(1, adds)
}

/// Three values in turn, so that branches carry the largest masses.
pub fn three_values_to_the_limit() -> Written {
    let adds = (0..MOST_COPIES).map(|n| add(n as u32 % 3)).collect();
    limit(3, adds)
}

fn add(index: u32) -> Call {
    Call::Add {
        index,
        words: vec![HALF; if index == 0 { 0 } else { 3 }],
    }
}

/// The adds, then calls at the limit, one copy below it and at it again.
fn limit(values: u32, adds: Vec<Call>) -> Written {
    let puts = (0..4).map(|index| Call::Put {
        index,
        coordinates: vec![(8.0 * index as f32).to_bits(), 0],
    });
    let mut calls: Vec<Call> = puts.chain(adds).collect();
    calls.extend([add(0), add(3), add(values - 1), add(9), add(1024)]);
    calls.extend(all_queries());
    calls.extend([Call::Delete { index: 0 }, add(3), add(3), add(0)]);
    calls.extend(all_queries());
    calls.extend([Call::Delete { index: 0 }, Call::Delete { index: 0 }]);
    calls.extend([add(0), add(0), add(0), Call::Delete { index: 3 }]);
    calls.extend(all_queries());
    Written::of(Run {
        making: Making::bare(2, 3, 0.5),
        calls,
    })
}

fn all_queries() -> Vec<Call> {
    let about = |id| [Call::Copies { id }, Call::Branch { id }, Call::Box { id }];
    (0..8).flat_map(about).collect()
}
