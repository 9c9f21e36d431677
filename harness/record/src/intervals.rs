//! Recorded sequences of `IntervalStoreManager<usize>`, the type that the node store uses.
use crate::record::Record;
use oracle::{IntervalStoreManager, Words};

pub const KIND: u32 = 1;
const SEQUENCES: usize = 260;
const SEED: u64 = 0xFEDC_BA98_7654_3210;
/// Largest number of branches, and so of numbers handed out.
const LARGEST: usize = 255;
const FEWEST_CALLS: usize = 40;
const MOST_CALLS: usize = 600;
const CALLS_BETWEEN_LOOKS: usize = 30;
/// The answer that stands for the error "no more indices".
const NONE_LEFT: usize = 65535;

/// What is given for a `get`, and for a look at all rows; any other number is released.
const GET: usize = 65535;
const ROWS: usize = 65534;

/// In which order numbers are got and released.
#[derive(Clone, Copy)]
enum Order {
    Stack,
    Queue,
    Random,
    AllThenNone,
    EverySecond,
    OnEmpty,
}

pub fn records() -> Vec<Record> {
    use Order::*;
    let orders = [Stack, Queue, Random, AllThenNone, EverySecond, OnEmpty];
    let mut words = Words::new(SEED);
    let sequence = |n: usize| {
        // each size once, then the smallest and the largest again
        let size = *[1, 2, 3, LARGEST - 1, LARGEST]
            .get(n.wrapping_sub(LARGEST))
            .unwrap_or(&(n + 1));
        let mut sequence = Sequence::start(size);
        sequence.run(orders[n % orders.len()], &mut words);
        sequence.rows();
        Record::new(KIND, sequence.given, sequence.written)
    };
    (0..SEQUENCES).map(sequence).collect()
}

/// A manager, the numbers in use in the order they were got, and the record so far.
struct Sequence {
    manager: IntervalStoreManager<usize>,
    size: usize,
    used: Vec<usize>,
    calls: usize,
    /// How many calls there were at the last look at the rows.
    looked: usize,
    given: Vec<u8>,
    written: Vec<u8>,
}

fn put(bytes: &mut Vec<u8>, number: usize) {
    let number = u16::try_from(number).expect("below 65,536");
    bytes.extend_from_slice(&number.to_le_bytes());
}

impl Sequence {
    fn start(size: usize) -> Self {
        let mut sequence = Sequence {
            manager: IntervalStoreManager::new(size),
            size,
            used: Vec::new(),
            calls: 0,
            looked: 0,
            given: Vec::new(),
            written: Vec::new(),
        };
        sequence.called(size, size);
        sequence
    }

    /// A call and its answer, how many intervals stand after it, and the top one.
    fn called(&mut self, call: usize, answer: usize) {
        put(&mut self.given, call);
        let standing = self.manager.oracle_last_in_use();
        let (start, end) = *self.manager.oracle_intervals().last().unwrap_or(&(0, 0));
        for number in [answer, standing, start, end] {
            put(&mut self.written, number);
        }
    }

    /// All intervals from the bottom, and zeros for the rows above them.
    fn rows(&mut self) {
        put(&mut self.given, ROWS);
        let mut rows = self.manager.oracle_intervals();
        rows.resize(LARGEST, (0, 0));
        for (start, end) in rows {
            put(&mut self.written, start);
            put(&mut self.written, end);
        }
    }

    /// All rows, if there were calls enough since the last look.
    fn look(&mut self) {
        if self.calls >= self.looked + CALLS_BETWEEN_LOOKS {
            self.looked = self.calls;
            self.rows();
        }
    }

    fn get(&mut self) {
        self.calls += 1;
        match self.manager.get() {
            Ok(number) => {
                self.used.push(number);
                self.called(GET, number);
            }
            Err(error) => {
                assert!(error.to_string() == "no more indices left in interval manager");
                assert!(self.used.len() == self.size);
                self.called(GET, NONE_LEFT);
            }
        }
    }

    /// Releases the number that is in use at a place of the list.
    fn release(&mut self, place: usize) {
        self.calls += 1;
        let number = self.used.remove(place);
        self.manager
            .release(number)
            .expect("release gives no error");
        self.called(number, number);
    }

    fn run(&mut self, order: Order, words: &mut Words) {
        let fewest = (FEWEST_CALLS + self.size / 2 + words.below(40)).min(MOST_CALLS);
        while self.calls < fewest {
            match order {
                Order::Stack | Order::Queue | Order::Random => self.mixed(order, words),
                Order::AllThenNone => self.all_then_none(words),
                Order::EverySecond => self.every_second(words),
                Order::OnEmpty => self.on_empty(words),
            }
        }
        assert!(self.calls <= MOST_CALLS);
    }

    fn get_all(&mut self) {
        while self.used.len() < self.size {
            self.get();
        }
    }

    /// A stretch of gets and releases, now with more of the ones, now of the others.
    fn mixed(&mut self, order: Order, words: &mut Words) {
        let gets_of_eight = words.one_of(&[2, 3, 4, 5, 6, 7]);
        for _ in 0..10 + words.below(30) {
            let held = self.used.len();
            if held == 0 || words.below(8) < gets_of_eight {
                self.get();
                continue;
            }
            self.release(match order {
                Order::Stack => held - 1,
                Order::Queue => 0,
                _ => words.below(held),
            });
        }
        self.look();
    }

    /// Every number is got and then released: last first, first first or in any order.
    fn all_then_none(&mut self, words: &mut Words) {
        self.get_all();
        let order = words.below(3);
        while let Some(last) = self.used.len().checked_sub(1) {
            self.release([last, 0, words.below(last + 1)][order]);
        }
        self.look();
        for _ in 0..words.below(4) {
            self.get();
        }
    }

    /// Every number is got, every second released, so that many intervals of one number stand.
    fn every_second(&mut self, words: &mut Words) {
        self.get_all();
        self.used.sort_unstable();
        let mut place = words.below(2);
        while place < self.used.len() {
            self.release(place);
            place += 1;
        }
        self.look();
        for _ in 0..words.below(self.size / 4 + 2) {
            self.get();
        }
        for _ in 0..words.below(self.used.len() / 4 + 1) {
            self.release(words.below(self.used.len()));
        }
        self.look();
    }

    /// Gets where nothing is left, between releases of a few.
    fn on_empty(&mut self, words: &mut Words) {
        self.get_all();
        for _ in 0..6 {
            self.get();
            for _ in 0..words.below(4).min(self.used.len()) {
                self.release(words.below(self.used.len()));
            }
            self.get_all();
        }
    }
}

/// What the sequences hold.
pub struct Counted {
    pub gets: usize,
    pub none_left: usize,
    pub releases: usize,
    pub looks: usize,
    pub fewest_calls: usize,
    pub most_calls: usize,
}

pub fn counted(records: &[Record]) -> Counted {
    let mut counted = Counted {
        gets: 0,
        none_left: 0,
        releases: 0,
        looks: 0,
        fewest_calls: usize::MAX,
        most_calls: 0,
    };
    for record in records {
        let numbers = |bytes: &[u8]| -> Vec<usize> {
            let two = |pair: &[u8]| usize::from(u16::from_le_bytes([pair[0], pair[1]]));
            bytes.chunks(2).map(two).collect()
        };
        let (given, written) = (numbers(&record.given), numbers(&record.written));
        let (mut place, mut calls) = (4, 0);
        for &call in &given[1..] {
            match call {
                ROWS => counted.looks += 1,
                GET => counted.gets += 1,
                _ => counted.releases += 1,
            }
            if call == GET && written[place] == NONE_LEFT {
                counted.none_left += 1;
            }
            calls += usize::from(call != ROWS);
            place += if call == ROWS { 2 * LARGEST } else { 4 };
        }
        counted.fewest_calls = counted.fewest_calls.min(calls);
        counted.most_calls = counted.most_calls.max(calls);
    }
    counted
}
