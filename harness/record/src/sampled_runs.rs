//! Recorded byte runs with arrivals and reports: sampled trees, and bare ones that are asked for reports.
use crate::record::ROOM;
use crate::runs::Entry;
use oracle::{feed, Words};
use runs::damaged::damage_whole;
use runs::examples;
use runs::generate::{self, Room, Widths::Few};

const SEED: u64 = 0x7A11_0E5C_0FFE_E123;
const SAMPLED: usize = 216;
const REPORTED: usize = 24;
const DAMAGED: usize = 36;
/// No record has room for more than seven arrivals of this capacity.
const LARGEST: u32 = 256;
const OF_LARGEST: usize = 4;

/// All entries: document 01's reports and samples, sampled runs, bare ones with reports, runs of the largest
/// capacity, and damaged ones.
pub fn entries() -> Vec<Entry> {
    let mut words = Words::new(SEED);
    let words = &mut words;
    let examples = [examples::reported(), examples::sampled()].concat();
    let mut entries: Vec<Entry> = examples.into_iter().map(Entry::whole).collect();
    entries.extend((0..SAMPLED).map(|n| Entry::whole(generate::sampled(words, room(n), Few))));
    entries.extend((0..REPORTED).map(|n| Entry::whole(generate::reported(words, room(n), Few))));
    let all = Room {
        run: ROOM,
        answers: ROOM,
    };
    entries.extend(
        (0..OF_LARGEST).map(|_| Entry::whole(generate::sampled_of(LARGEST, words, all, Few))),
    );
    entries.extend((0..DAMAGED).map(|n| damaged(n, words)));
    assert!(
        feed::seed17_draws() == 0,
        "the branch seeded with 17 was reached"
    );
    entries
}

/// Most runs are short; every eighteenth has all the room there is.
fn room(n: usize) -> Room {
    let (run, answers) = match n % 18 {
        0 => (ROOM, ROOM),
        1..=3 => (4_800, 4_000),
        _ => (2_200, 2_200),
    };
    Room { run, answers }
}

/// A damaged run, bare or sampled in turn. Answers that need more than is lent are refused with 15.
fn damaged(n: usize, words: &mut Words) -> Entry {
    let room = Room {
        run: 600,
        answers: 800,
    };
    let drawn = match n % 3 {
        0 => generate::reported(words, room, Few),
        _ => generate::sampled(words, room, Few),
    };
    Entry::lent_all(damage_whole(&drawn.run, words))
}
