//! Recorded byte runs of bare trees with what they return and write.
use crate::record::{Record, ROOM};
use oracle::{feed, Words};
use runs::damaged::damage;
use runs::generate::{self, Room, Widths, Written};
use runs::{bytes_of, decode, examples, outcome, Call, Making, Outcome, Run};

pub const KIND: u32 = 2;
const SEED: u64 = 0x0F1E_2D3C_4B5A_6978;
const GENERATED: usize = 348;
const DAMAGED: usize = 72;
/// Runs that fill a tree of 256 leaves, and generated ones that need too many answer bytes.
const FULL: usize = 4;
const NEEDING_MORE: usize = 4;
const SEED_OF_LARGE: u64 = 0x2560_0015_1A26_E000;

/// A run's bytes and what they come to.
pub struct Entry {
    pub run: Vec<u8>,
    pub outcome: Outcome,
}

impl Entry {
    pub fn whole(written: Written) -> Self {
        let run = written.run.encode();
        assert_eq!(decode(&run).as_ref(), Some(&written.run));
        Entry {
            run,
            outcome: Outcome::Answered(bytes_of(&written.answers)),
        }
    }

    /// Bytes and what they come to where as much is lent as the program lends.
    pub fn lent_all(run: Vec<u8>) -> Self {
        let outcome = outcome(&run, ROOM);
        Entry { run, outcome }
    }

    pub fn record(&self) -> Record {
        let written = match &self.outcome {
            Outcome::Answered(answers) => answers.clone(),
            Outcome::Refused(_) => vec![],
        };
        Record::returning(KIND, self.run.clone(), self.outcome.returned(), written)
    }
}

/// All entries: document 01's inputs, generated runs, large ones, and damaged ones.
pub fn entries() -> Vec<Entry> {
    let mut words = Words::new(SEED);
    let mut entries: Vec<Entry> = examples::bare().into_iter().map(Entry::whole).collect();
    entries.extend(
        (0..GENERATED).map(|n| Entry::whole(generate::run(&mut words, room(n), Widths::Few))),
    );
    entries.extend(large());
    entries.extend((0..DAMAGED).map(|_| damaged(&mut words)));
    assert!(
        feed::seed17_draws() == 0,
        "the branch seeded with 17 was reached"
    );
    entries
}

/// Most runs are short, so that there are many; every fifth has all the room there is.
fn room(n: usize) -> Room {
    let (run, answers) = match n % 5 {
        0 => (ROOM, ROOM),
        1 | 2 => (4_000, 5_000),
        _ => (2_000, 2_400),
    };
    Room { run, answers }
}

/// Full trees of 256 leaves, then runs whose answers fill what is lent or do not fit.
fn large() -> Vec<Entry> {
    let mut words = Words::new(SEED_OF_LARGE);
    let words = &mut words;
    let whole = Room {
        run: ROOM,
        answers: ROOM,
    };
    let full = (0..FULL).map(|n| Entry::whole(generate::full(words, whole, n)));
    let mut entries: Vec<Entry> = full.collect();
    entries.extend(at_the_end_of_the_room().into_iter().map(Entry::lent_all));
    let room = Room {
        run: 8_000,
        answers: 3 * ROOM,
    };
    let drawn = (0..GENERATED)
        .map(|_| Entry::lent_all(generate::run(words, room, Widths::Few).run.encode()));
    let too_large = drawn.filter(|entry| entry.outcome == Outcome::Refused(15));
    entries.extend(too_large.take(NEEDING_MORE));
    entries
}

/// Puts and box queries on 8 channels. A making answers 4 bytes, a put 4 and a box 68, so 240 boxes and
/// 15 puts need all bytes that are lent.
fn at_the_end_of_the_room() -> Vec<Vec<u8>> {
    let run = |capacity, puts: u32, boxes: u32| {
        let making = Making::bare(8, capacity, 1.0);
        let put = |index| Call::Put {
            index,
            coordinates: vec![(index as f32).to_bits(); 8],
        };
        let asked = (0..boxes).map(|id| Call::Box { id });
        let calls = (0..puts).map(put).chain(asked).collect();
        Run { making, calls }.encode()
    };
    let out_of_layout = [run(2, 16, 240), vec![0; 4]].concat();
    vec![
        run(2, 15, 240),
        run(2, 16, 240),
        // refused, so that only 4 bytes are needed
        run(1, 16, 240),
        out_of_layout,
    ]
}

fn damaged(words: &mut Words) -> Entry {
    let room = Room {
        run: 600,
        answers: 800,
    };
    Entry::lent_all(damage(&generate::run(words, room, Widths::Few).run, words))
}
