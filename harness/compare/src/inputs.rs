//! The n-th inputs of a seed: a run and its answers, and damaged bytes.
use oracle::Words;
use runs::damaged::damage_whole;
use runs::examples;
use runs::generate::{
    self, lone_leaf_to_the_limit, three_values_to_the_limit, Room, Widths, Written,
};

pub struct Inputs {
    pub number: usize,
    pub written: Written,
    pub damaged: Vec<Vec<u8>>,
}

/// What makes up a run in a room.
type Draw = fn(&mut Words, Room, Widths) -> Written;

/// Of five runs two are bare, one is bare with reports, two are sampled.
const MIXED: [Draw; 5] = [
    generate::run,
    generate::sampled,
    generate::reported,
    generate::sampled,
    generate::run,
];

/// Where inputs come from.
pub struct Source {
    seed: u64,
    /// Document 01's inputs, with two runs to the limit of copies and those of many channels.
    first: Vec<Written>,
}

impl Source {
    pub fn new(seed: u64) -> Self {
        let mut first = examples::bare();
        first.push(lone_leaf_to_the_limit());
        first.push(three_values_to_the_limit());
        first.extend(examples::reported());
        first.extend(examples::sampled());
        first.extend(examples::wide());
        Source { seed, first }
    }

    /// Runs of each kind have rooms of each size in turn.
    pub fn draw(&self, number: usize) -> Inputs {
        let mut words = Words::nth(self.seed, number);
        let written = match self.first.get(number) {
            Some(written) => written.clone(),
            None => kind(number / ROOMS)(&mut words, room(number), Widths::All),
        };
        inputs(number, written, &mut words)
    }

    /// Inputs with a short run.
    pub fn draw_short(&self, number: usize) -> Inputs {
        let mut words = Words::nth(self.seed, number);
        let written = kind(number)(&mut words, SHORT, Widths::All);
        inputs(number, written, &mut words)
    }
}

fn kind(number: usize) -> Draw {
    MIXED[number % MIXED.len()]
}

fn inputs(number: usize, written: Written, words: &mut Words) -> Inputs {
    let damaged = |n| damage_whole(&kind(number + n)(words, SHORT, Widths::All).run, words);
    Inputs {
        number,
        written,
        damaged: (0..4).map(damaged).collect(),
    }
}

const SHORT: Room = Room {
    run: 2_000,
    answers: 4_000,
};

/// So many rooms go round.
const ROOMS: usize = 8;

/// Every eighth run has room for chains of 256 and several sweeps, or for full samples of 256.
fn room(number: usize) -> Room {
    let (run, answers) = match number % ROOMS {
        0 => (2_200_000, 1_000_000),
        1..=3 => (60_000, 60_000),
        _ => (12_000, 12_000),
    };
    Room { run, answers }
}
