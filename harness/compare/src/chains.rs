//! Chains of 256 leaves, the deepest trees that there are, answered on as little stack as docs/LAYOUT.md asks for.
use port::{Called, Lending};
use runs::{Call, Making, Run};
use std::thread::Builder;

/// docs/LAYOUT.md: 'each with 320 KB of stack'.
const STACK: usize = 320 * 1024;

const CHANNELS: [u32; 2] = [8, 32];
const CAPACITY: u32 = 256;

/// In which direction each reading lies beyond all before it.
#[derive(Clone, Copy)]
enum Beyond {
    Above,
    Below,
}

/// What a chain is made of.
#[derive(Clone, Copy)]
struct Chain {
    beyond: Beyond,
    channels: u32,
}

impl Chain {
    /// Whole numbers, 4 apart.
    fn coordinates(self, n: u32) -> Vec<u32> {
        let x = match self.beyond {
            Beyond::Above => 4.0 * n as f32,
            Beyond::Below => -4.0 * n as f32,
        };
        vec![x.to_bits(); self.channels as usize]
    }

    /// Words whose cuts fall next to the outermost end: the root's parts the new reading from all others.
    fn words(self) -> Vec<u64> {
        let word = match self.beyond {
            Beyond::Above => u64::MAX << 52,
            Beyond::Below => 1 << 52,
        };
        vec![word; CAPACITY as usize]
    }

    fn put(self, index: u32) -> Call {
        Call::Put {
            index,
            coordinates: self.coordinates(index),
        }
    }

    fn report(self, n: u32) -> Call {
        Call::Report {
            rows: CAPACITY,
            coordinates: self.coordinates(n),
        }
    }

    /// A bare chain, each of its boxes asked for; then every third reading goes, and one comes.
    fn bare(self, share: f64) -> Run {
        let add = |index| Call::Add {
            index,
            words: self.words(),
        };
        let mut calls: Vec<Call> = (0..=CAPACITY).map(|index| self.put(index)).collect();
        calls.extend((0..CAPACITY).map(add));
        calls.extend((0..CAPACITY - 1).map(|id| Call::Box { id }));
        calls.extend([0, 100, CAPACITY, 1000].map(|n| self.report(n)));
        calls.extend((0..CAPACITY).step_by(3).map(|index| Call::Delete { index }));
        calls.extend([add(CAPACITY), self.report(1000)]);
        Run {
            making: Making::bare(self.channels, CAPACITY, share),
            calls,
        }
    }

    /// A sampled chain, from which the first that came goes with each arrival once it is full.
    fn sampled(self, share: f64) -> Run {
        let arrival = |index| Call::Arrival {
            index,
            weight: (-1.0 - index as f32).to_bits(),
            start: 0,
            words: self.words(),
        };
        let mut calls: Vec<Call> = (0..2 * CAPACITY).map(|index| self.put(index)).collect();
        calls.extend((0..2 * CAPACITY).map(arrival));
        calls.extend([self.report(0), self.report(1000), Call::Sample]);
        Run {
            making: Making::sampled(self.channels, CAPACITY, share, 1.0),
            calls,
        }
    }
}

/// Chains to the left and to the right, of few channels and of the most, with all boxes cached, half of them and none.
pub fn all() -> Vec<Run> {
    let mut runs = vec![];
    for channels in CHANNELS {
        for beyond in [Beyond::Above, Beyond::Below] {
            let chain = Chain { beyond, channels };
            let both = |share: f64| [chain.bare(share), chain.sampled(share)];
            runs.extend([1.0, 0.5, 0.0].map(both).into_iter().flatten());
        }
    }
    runs
}

/// The port's answer. Where the stack is too small the process ends, and nothing is compared.
pub fn on_small_stack(run: &[u8], lent: usize) -> Result<Called, String> {
    let mut lending = Lending::new(run, lent, 0);
    let thread = Builder::new().stack_size(STACK).spawn(move || {
        lending.call();
        lending
    });
    let thread = thread.map_err(|e| e.to_string())?;
    let lending = thread.join().map_err(|_| "a thread has panicked")?;
    Ok(lending.called())
}
