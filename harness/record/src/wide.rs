//! Recorded cuts, byte runs and texts of more than 8 channels. They come last in the file.
use crate::cuts;
use crate::record::{Record, ROOM};
use crate::runs::Entry;
use crate::texts;
use ::texts::generate::{made_wide, WIDE_MAKINGS};
use oracle::{feed, Words};
use runs::damaged::damage_whole;
use runs::examples;
use runs::generate::{self, Room, Widths::Many};

const SEED: u64 = 0x0032_C4A2_2E15_0007;
const CUTS: usize = 1_200;
const BARE: usize = 60;
const SAMPLED: usize = 72;
const REPORTED: usize = 48;
const DAMAGED: usize = 20;

/// All that is recorded of many channels.
pub struct Wide {
    pub cuts: Vec<Record>,
    pub runs: Vec<Entry>,
    pub texts: Vec<texts::Entry>,
}

impl Wide {
    pub fn new() -> Self {
        let mut words = Words::new(SEED);
        let words = &mut words;
        let wide = Wide {
            cuts: cuts::of_many_channels(CUTS, words),
            runs: runs(words),
            texts: texts(words),
        };
        assert!(
            feed::seed17_draws() == 0,
            "the branch seeded with 17 was reached"
        );
        wide
    }

    /// The records in the order of the file.
    pub fn bytes(&self) -> impl Iterator<Item = Vec<u8>> + '_ {
        let cuts = self.cuts.iter().map(Record::bytes);
        let runs = self.runs.iter().map(|run| run.record().bytes());
        let texts = self.texts.iter().map(|text| text.record().bytes());
        cuts.chain(runs).chain(texts)
    }
}

/// Makings at the limit and reports with rounded sums, then bare runs, sampled ones, bare ones with reports, and damaged ones.
fn runs(words: &mut Words) -> Vec<Entry> {
    let mut entries: Vec<Entry> = examples::wide().into_iter().map(Entry::whole).collect();
    entries.extend((0..BARE).map(|n| Entry::whole(generate::run(words, room(n), Many))));
    entries.extend((0..SAMPLED).map(|n| Entry::whole(generate::sampled(words, room(n), Many))));
    entries.extend((0..REPORTED).map(|n| Entry::whole(generate::reported(words, room(n), Many))));
    entries.extend((0..DAMAGED).map(|n| damaged(n, words)));
    entries
}

/// Most runs are short; every twelfth has all the room there is.
fn room(n: usize) -> Room {
    let (run, answers) = match n % 12 {
        0 => (ROOM, ROOM),
        1..=4 => (9_000, 9_000),
        _ => (4_000, 4_000),
    };
    Room { run, answers }
}

/// A damaged run, bare or sampled in turn.
fn damaged(n: usize, words: &mut Words) -> Entry {
    let room = Room {
        run: 1_600,
        answers: 1_600,
    };
    let drawn = match n % 3 {
        0 => generate::reported(words, room, Many),
        _ => generate::sampled(words, room, Many),
    };
    Entry::lent_all(damage_whole(&drawn.run, words))
}

/// Texts whose making has more channels than the program prints.
fn texts(words: &mut Words) -> Vec<texts::Entry> {
    let given = (0..WIDE_MAKINGS.len()).map(|n| made_wide(n, words));
    given.map(texts::Entry::new).collect()
}
