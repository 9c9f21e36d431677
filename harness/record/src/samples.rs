//! Recorded sequences of `Sampler<u16>` by itself, with the starting chance as `update` asks for it.
use crate::record::{Record, ROOM};
use oracle::{factor, SampledTree, Sampler, Words};
use runs::arriving::{initial_share, start_word, Weighing, Weights, NAN};

pub const KIND: u32 = 12;
const SEED: u64 = 0x5A3D_1E0F_9C2B_7781;
const SMALLEST: usize = 2;
const LARGEST: usize = 256;
/// Every capacity once, then so many of the smallest again, then the largest once more.
const SMALL_AGAIN: usize = 72;
const SEQUENCES: usize = LARGEST - SMALLEST + 1 + SMALL_AGAIN + 1;
/// From this capacity on only every eighth sequence, and the last, is long enough to fill the sample.
const ALWAYS_FILLED: usize = 24;
const ARRIVALS_BETWEEN_LOOKS: usize = 25;
/// The bytes of an item that is given, and of an arrival's answer.
const ITEM: usize = 16;
const ANSWER: usize = 20;

/// The index that stands for a look at the whole heap, and the one for an eviction by itself.
const LOOK: u16 = 65535;
const EVICT: u16 = 65534;
/// Words for the starting chance are aimed so near to it, in factors.
const WITHIN: usize = 1;

/// Samples up to this capacity are emptied in some sequences.
const EMPTIED: usize = 64;

/// What an arrival or an eviction does.
const PASSES: u16 = 0;
const STARTS: u16 = 1;
const EVICTS: u16 = 2;

pub fn records() -> Vec<Record> {
    let mut words = Words::new(SEED);
    let sequence = |n: usize| {
        let every = LARGEST - SMALLEST + 1;
        let capacity = match n {
            n if n < every => SMALLEST + n,
            n if n < every + SMALL_AGAIN => SMALLEST + (n - every) % 9,
            _ => LARGEST,
        };
        let filled = capacity < ALWAYS_FILLED || n % 8 == 6 || n + 1 == SEQUENCES;
        let arrivals = if filled {
            capacity + 12 + words.below(60 + capacity / 8)
        } else {
            1 + words.below(48)
        };
        let share = initial_share(capacity, &mut words);
        // so that each kind is among the sequences that go on until the sample is full
        let weights = Weights::ALL[(n + n / 8) % 8];
        let mut sequence = Sequence::start(capacity, share, weights, &mut words);
        for n in 0..arrivals {
            sequence.arrive(&mut words);
            sequence.evict_some(&mut words);
            sequence.look_between(arrivals - n);
        }
        sequence.look();
        Record::new(KIND, sequence.given, sequence.written)
    };
    (0..SEQUENCES).map(sequence).collect()
}

/// A sampler of the Rust, its starting chance, and the record so far.
struct Sequence {
    sampler: Sampler<u16>,
    /// Only asked for the chance, which the Rust's `SamplerPlusTree` keeps to itself.
    tree: SampledTree,
    weighing: Weighing,
    capacity: usize,
    /// Whether entries are evicted by themselves, between arrivals.
    evicting: bool,
    arrivals: usize,
    given: Vec<u8>,
    written: Vec<u8>,
}

impl Sequence {
    fn start(capacity: usize, share: f64, weights: Weights, words: &mut Words) -> Self {
        let mut given = share.to_bits().to_le_bytes().to_vec();
        given.extend_from_slice(&(capacity as u64).to_le_bytes());
        Sequence {
            sampler: Sampler::new(capacity, false).expect("a sampler"),
            tree: SampledTree::make(1, capacity, 0.0, share).expect("a tree"),
            capacity,
            evicting: words.once_in(3),
            weighing: Weighing::new(weights, words),
            arrivals: 0,
            given,
            written: Vec::new(),
        }
    }

    fn arrive(&mut self, words: &mut Words) {
        self.arrivals += 1;
        let top = self.sampler.oracle_heap().first().map(|(top, _)| *top);
        let weight = self.weighing.next(top, words);
        let chance = self.tree.chance(self.sampler.get_fill_fraction());
        let word = start_word(chance, WITHIN, words);
        let index = if words.once_in(16) {
            words.below(usize::from(EVICT))
        } else {
            words.below(1024)
        };
        self.item(word, weight.to_bits(), index as u16);

        // as `SamplerPlusTree::update` has it
        let mut initial = false;
        if !self.sampler.is_full() {
            initial = factor(word) < chance;
        }
        let held = self.sampler.oracle_heap().len();
        assert!(initial || held > 0, "an empty sample starts");
        let state = self
            .sampler
            .accept_point(initial, weight, index, usize::MAX);
        let (accepted, gone, gone_weight) = Sampler::<u16>::oracle_told(&state.expect("no error"));
        let (kind, gone, gone_weight) = match (accepted, gone) {
            (false, _) => (PASSES, 0, 0.0),
            (true, usize::MAX) => (STARTS, 0, 0.0),
            (true, gone) => (EVICTS, gone as u16, gone_weight),
        };
        if accepted {
            self.sampler.add_point(index).expect("no error");
        }
        let size = self.sampler.oracle_heap().len();
        assert!(size == held + usize::from(kind == STARTS));
        self.answer(kind, gone, gone_weight, chance);
    }

    /// An eviction by itself. The Rust panics at an empty sample, so none is made there.
    fn evict(&mut self) {
        if self.sampler.oracle_heap().is_empty() {
            return;
        }
        let chance = self.tree.chance(self.sampler.get_fill_fraction());
        self.item(0, 0, EVICT);
        let (gone, weight, _) = self.sampler.evict_max().expect("no error");
        self.answer(EVICTS, gone as u16, weight, chance);
    }

    /// Between arrivals some entries go by themselves, where the sequence has that; now and then all.
    fn evict_some(&mut self, words: &mut Words) {
        if !self.evicting || !words.once_in(8) {
            return;
        }
        let all = self.capacity <= EMPTIED && words.once_in(5);
        let some = if all {
            self.capacity
        } else {
            1 + words.below(3)
        };
        for _ in 0..some {
            self.evict();
        }
    }

    /// What is done, the index and weight that go, the size after it and the chance before it.
    fn answer(&mut self, kind: u16, gone: u16, weight: f32, chance: f64) {
        self.written.extend_from_slice(&kind.to_le_bytes());
        self.written.extend_from_slice(&gone.to_le_bytes());
        self.put(self.sampler.oracle_heap().len() as u32);
        self.put(pattern(weight));
        self.written
            .extend_from_slice(&chance.to_bits().to_le_bytes());
    }

    /// What is given for an arrival, an eviction or a look.
    fn item(&mut self, word: u64, weight: u32, index: u16) {
        self.given.extend_from_slice(&word.to_le_bytes());
        self.given.extend_from_slice(&weight.to_le_bytes());
        self.given
            .extend_from_slice(&u32::from(index).to_le_bytes());
    }

    fn put(&mut self, number: u32) {
        self.written.extend_from_slice(&number.to_le_bytes());
    }

    /// The whole heap: weight and index in each slot, from the top.
    fn look(&mut self) {
        self.item(0, 0, LOOK);
        for (weight, index) in self.sampler.oracle_heap() {
            self.put(pattern(weight));
            self.put(index as u32);
        }
    }

    /// The same between arrivals, if there is room for it, for the arrivals left and for a look at the end.
    fn look_between(&mut self, left: usize) {
        let full = self.written.len() + 2 * ANSWER * left + 2 * 8 * LARGEST > ROOM;
        if self.arrivals.is_multiple_of(ARRIVALS_BETWEEN_LOOKS) && !full {
            self.look();
        }
    }
}

fn pattern(weight: f32) -> u32 {
    if weight.is_nan() {
        NAN
    } else {
        weight.to_bits()
    }
}

/// What the sequences hold.
#[derive(Default)]
pub struct Counted {
    pub arrivals: usize,
    pub passing: usize,
    pub starting: usize,
    pub evicting: usize,
    /// Evictions by themselves, and how many of them leave an empty sample.
    pub evictions: usize,
    pub emptied: usize,
    pub looks: usize,
    pub fewest_arrivals: usize,
    pub most_arrivals: usize,
    /// Sequences at whose end the sample is full.
    pub full: usize,
}

pub fn counted(records: &[Record]) -> Counted {
    let mut counted = Counted {
        fewest_arrivals: usize::MAX,
        ..Counted::default()
    };
    let two = |bytes: &[u8], at: usize| u16::from_le_bytes([bytes[at], bytes[at + 1]]);
    for record in records {
        let (mut place, mut arrivals, mut size) = (0, 0, 0);
        for item in record.given.chunks(ITEM).skip(1) {
            if two(item, 12) == LOOK {
                counted.looks += 1;
                place += 8 * size;
                continue;
            }
            size = usize::from(two(&record.written, place + 4));
            match (two(item, 12), two(&record.written, place)) {
                (EVICT, _) => counted.evictions += 1,
                (_, PASSES) => counted.passing += 1,
                (_, STARTS) => counted.starting += 1,
                _ => counted.evicting += 1,
            }
            arrivals += usize::from(two(item, 12) != EVICT);
            counted.emptied += usize::from(size == 0);
            place += ANSWER;
        }
        counted.arrivals += arrivals;
        counted.full += usize::from(size == usize::from(two(&record.given, 8)));
        counted.fewest_arrivals = counted.fewest_arrivals.min(arrivals);
        counted.most_arrivals = counted.most_arrivals.max(arrivals);
    }
    counted
}
