//! Arrivals: those that fill a sample, those that evict from a full one, and those that a full one does
//! not accept. Each brings as many words as the capacity, of which the tree takes those of its walk.
use crate::readings::written;
use crate::workload::{Bytes, Workload};
use crate::{Shape, SEED};
use oracle::{draw_of_no_weight, feed, Arrived, SampledTree, Table, Words};
use runs::{Call, Making};
use std::hint::black_box;
use std::time::Instant;

/// The arrivals that are timed.
#[derive(Clone, Copy, PartialEq)]
pub enum Arrivals {
    Filling,
    Evicting,
    NotAccepted,
}

/// A sampled tree and what came to it, as the port is told.
struct Came {
    sampled: SampledTree,
    table: Table,
    bytes: Bytes,
    capacity: usize,
    count: usize,
}

/// What the Rust is told: indices and weights, and the words that it takes, in their order.
#[derive(Default)]
struct Told {
    arrivals: Vec<(usize, f32)>,
    fed: Vec<u64>,
}

impl Came {
    fn none(shape: &Shape, words: &mut Words) -> Self {
        let Shape {
            channels,
            capacity,
            share,
        } = *shape;
        let making = Making::sampled(channels, capacity as u32, share, 1.0);
        let (table, bytes) = written(&making, words);
        let made = SampledTree::make(channels as usize, capacity, share, 1.0);
        Came {
            sampled: made.expect("in range"),
            table,
            bytes,
            capacity,
            count: 0,
        }
    }

    /// The next index in turn comes with this weight, and starts while the sample is not full.
    fn come(&mut self, weight: f32, words: &mut Words, told: &mut Told) {
        let index = self.count % Table::SIZE;
        let starting = self.count < self.capacity;
        self.count += 1;
        let fed: Vec<u64> = (0..self.capacity).map(|_| words.word()).collect();
        let arrived = self.sampled.arrive(&self.table, index, weight, 0, &fed);
        let arrived = arrived.expect("accepted or not, but no error");
        told.arrivals.push((index, weight));
        told.fed.extend(starting.then_some(0));
        let taken = arrived.map_or(0, |arrived| arrived.added.words);
        told.fed.extend_from_slice(&fed[..taken]);
        let call = Call::Arrival {
            index: index as u32,
            weight: weight.to_bits(),
            start: 0,
            words: fed,
        };
        self.bytes.push(&call, &answer(arrived));
    }
}

fn answer(arrived: Option<Arrived>) -> [u32; 4] {
    match arrived {
        None => [0; 4],
        Some(Arrived { added, evicted }) => {
            let what = if evicted.is_some() { 2 } else { 1 };
            [0, what, added.leaf as u32, evicted.unwrap_or(0) as u32]
        }
    }
}

/// So many arrivals of one kind; as many as the capacity where they fill the sample.
pub fn arrivals(which: Arrivals, shape: &Shape, calls: usize) -> Workload {
    let mut words = Words::new(SEED);
    let words = &mut words;
    let mut came = Came::none(shape, words);
    let calls = match which {
        Arrivals::Filling => shape.capacity,
        _ => {
            let mut before = Told::default();
            for _ in 0..shape.capacity {
                let weight = -1.0 - words.below(shape.capacity) as f32;
                came.come(weight, words, &mut before);
            }
            calls
        }
    };
    let (before, sampled) = (came.bytes.clone(), came.sampled.clone());
    let mut told = Told::default();
    for n in 0..calls {
        let any = words.below(shape.capacity) as f32;
        let weight = match which {
            Arrivals::NotAccepted => 1.0 + any,
            // lower than all that came a capacity before
            _ => -(n as f32) - shape.capacity as f32 - any,
        };
        came.come(weight, words, &mut told);
    }
    let started = if which == Arrivals::Filling { calls } else { 0 };
    Workload {
        before,
        calls,
        to_a_call: (told.fed.len() - started) as f64 / calls as f64,
        whole: came.bytes,
        rust: Box::new({
            let table = came.table;
            move || of_rust(&sampled, &table, &told)
        }),
    }
}

/// The arrivals alone, each by one `update`: what came before lies outside, and all words are handed over
/// before, as a slice that the arrivals take from in turn.
fn of_rust(before: &SampledTree, table: &Table, told: &Told) -> f64 {
    let mut sampled = before.clone();
    let draw = draw_of_no_weight();
    feed::set(&told.fed);
    let start = Instant::now();
    for (index, weight) in &told.arrivals {
        black_box(sampled.arrive_fed(table, *index, *weight, draw)).expect("no error");
    }
    let seconds = start.elapsed().as_secs_f64();
    assert_eq!(feed::taken(), told.fed.len());
    seconds
}
