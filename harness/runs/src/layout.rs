//! A run and its calls, and the sizes of their bytes and answers, as docs/LAYOUT.md has them.

/// The numbers of an answer; the first is the refusal, or 0.
pub type Answer = Vec<u32>;

/// The making of a tree, with a sample or without. Shares are the bits of f64 numbers.
#[derive(Clone, Copy, Debug, PartialEq)]
pub struct Making {
    pub channels: u32,
    pub capacity: u32,
    /// The cached share.
    pub share: u64,
    /// The initial share of a sampled tree. A bare tree has none.
    pub initial: Option<u64>,
}

/// A call after the making. Coordinates and weights are the bits of f32 numbers.
#[derive(Clone, Debug, PartialEq)]
pub enum Call {
    Put {
        index: u32,
        coordinates: Vec<u32>,
    },
    Add {
        index: u32,
        words: Vec<u64>,
    },
    Delete {
        index: u32,
    },
    Arrival {
        index: u32,
        weight: u32,
        /// The word for the starting chance.
        start: u64,
        words: Vec<u64>,
    },
    Report {
        /// How many rows are lent.
        rows: u32,
        coordinates: Vec<u32>,
    },
    Copies {
        id: u32,
    },
    Branch {
        id: u32,
    },
    Box {
        id: u32,
    },
    Sample,
}

/// A making and the calls after it.
#[derive(Clone, Debug, PartialEq)]
pub struct Run {
    pub making: Making,
    pub calls: Vec<Call>,
}

/// The kinds of a making: of a bare and of a sampled tree.
pub(crate) const MAKE_BARE: u32 = 1;
pub(crate) const MAKE_SAMPLED: u32 = 2;

/// Numbers of a row in a report's answer: id, depth, mass, and the two halves of the probability.
pub const ROW_NUMBERS: usize = 5;

impl Making {
    pub fn bare(channels: u32, capacity: u32, share: f64) -> Self {
        Making {
            channels,
            capacity,
            share: share.to_bits(),
            initial: None,
        }
    }

    pub fn sampled(channels: u32, capacity: u32, share: f64, initial: f64) -> Self {
        Making {
            initial: Some(initial.to_bits()),
            ..Making::bare(channels, capacity, share)
        }
    }

    pub fn kind(&self) -> u32 {
        match self.initial {
            None => MAKE_BARE,
            Some(_) => MAKE_SAMPLED,
        }
    }

    /// How many bytes the making has in a run.
    pub fn run_bytes(&self) -> usize {
        4 * match self.initial {
            None => 5,
            Some(_) => 7,
        }
    }
}

impl Call {
    pub fn kind(&self) -> u32 {
        match self {
            Call::Put { .. } => 3,
            Call::Add { .. } => 4,
            Call::Delete { .. } => 5,
            Call::Arrival { .. } => 6,
            Call::Report { .. } => 7,
            Call::Copies { .. } => 8,
            Call::Branch { .. } => 9,
            Call::Box { .. } => 10,
            Call::Sample => 11,
        }
    }

    /// How many bytes the call has in a run.
    pub fn run_bytes(&self) -> usize {
        4 * match self {
            Call::Put { coordinates, .. } | Call::Report { coordinates, .. } => {
                3 + coordinates.len()
            }
            Call::Add { words, .. } => 3 + 2 * words.len(),
            Call::Arrival { words, .. } => 6 + 2 * words.len(),
            Call::Delete { .. } | Call::Copies { .. } => 2,
            Call::Branch { .. } | Call::Box { .. } => 2,
            Call::Sample => 1,
        }
    }

    /// How many numbers its answer has after this making. Its numbers need not be in range: 64 bits
    /// hold the size of a box with 2^32 - 1 channels and of a report with as many rows too.
    pub fn answer_numbers(&self, making: &Making) -> usize {
        match self {
            Call::Put { .. } => 1,
            Call::Add { .. } => 3,
            Call::Delete { .. } | Call::Copies { .. } => 2,
            Call::Arrival { .. } => 4,
            Call::Report { rows, .. } => 2 + ROW_NUMBERS * *rows as usize,
            Call::Branch { .. } => 6,
            Call::Box { .. } => 1 + 2 * making.channels as usize,
            Call::Sample => 2 + 2 * making.capacity as usize,
        }
    }

    pub fn answer_bytes(&self, making: &Making) -> usize {
        4 * self.answer_numbers(making)
    }
}

impl Run {
    pub fn run_bytes(&self) -> usize {
        self.making.run_bytes() + self.calls.iter().map(Call::run_bytes).sum::<usize>()
    }
}
