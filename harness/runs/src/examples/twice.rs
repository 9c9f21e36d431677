//! Values held more than once, with every query and reports after each call: their masses are where the Rust and the count part
//! (docs/DIFFERENCES.md, 1.2 to 1.4).
use super::reported::report;
use super::{all_queries, puts, HALF};
use crate::generate::Written;
use crate::layout::{Call, Making, Run};

const CAPACITY: u32 = 4;
const READINGS: [&[f32]; 3] = [&[0.0], &[8.0], &[24.0]];

/// A step of a run, by the index of its reading.
#[derive(Clone, Copy)]
enum Step {
    Add(u32),
    Delete(u32),
}
use Step::{Add, Delete};

/// Copies that come to a lone leaf and go; a branch made above a leaf of 1 to 4 copies, and above such a branch; the same leaves in
/// another order; copies and leaves that go below a branch.
pub fn all() -> Vec<Written> {
    let mut lists = vec![
        vec![Add(0), Add(0), Add(0), Add(0), Delete(0), Delete(0)],
        vec![Add(0), Add(1), Add(0), Add(1), Delete(0), Delete(0)],
        vec![Add(0), Add(0), Add(1), Delete(0), Delete(0)],
        vec![Add(0), Add(0), Add(1), Add(2), Add(1), Delete(2), Delete(1)],
    ];
    let above = |copies| [vec![Add(0); copies], vec![Add(1), Delete(1)]].concat();
    lists.extend((1..=4).map(above));
    lists.iter().map(|steps| run(steps)).collect()
}

fn run(steps: &[Step]) -> Written {
    let mut calls = puts(&READINGS);
    for step in steps {
        calls.push(match *step {
            Add(index) => Call::Add {
                index,
                words: vec![HALF; 3],
            },
            Delete(index) => Call::Delete { index },
        });
        calls.extend(all_queries(CAPACITY + READINGS.len() as u32));
        calls.extend([0.0, 8.0, 12.0].map(|query| report(3, &[query])));
    }
    Written::of(Run {
        making: Making::bare(1, CAPACITY, 1.0),
        calls,
    })
}
