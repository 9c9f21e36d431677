//! Recorded texts with what `treelist` prints for them.
use crate::record::Record;
use oracle::{feed, Words};
use texts::form::MOST_BYTES;
use texts::generate::{self, Given, BREAKS, LONGS, MAKINGS};
use texts::{outcome, Outcome};

pub const KIND: u32 = 3;
/// No recorded text is longer.
pub const MOST_TEXT: usize = 4_096;
const SEED: u64 = 0x1E57_0A5C_1187_60D4;
const WHOLE: usize = 60;
const FULL: usize = 8;
const CHANGED: usize = 24;
const WITHOUT_ROWS: usize = 6;

/// A text and what it comes to.
pub struct Entry {
    pub kind: &'static str,
    pub text: Vec<u8>,
    pub outcome: Outcome,
}

impl Entry {
    pub fn new(given: Given) -> Self {
        let entry = Entry {
            kind: given.kind,
            outcome: outcome(&given.bytes),
            text: given.bytes,
        };
        assert!(entry.text.len() <= MOST_TEXT);
        entry
    }

    pub fn output(&self) -> Vec<u8> {
        self.outcome.bytes()
    }

    pub fn record(&self) -> Record {
        Record::new(KIND, self.text.clone(), self.output())
    }
}

/// All entries: document 01's text, small texts, texts in form, makings at their limits, filled
/// texts, each break of a rule, and changed texts.
pub fn entries() -> Vec<Entry> {
    let mut words = Words::new(SEED);
    let words = &mut words;
    let mut given = vec![generate::document()];
    given.extend(generate::smalls());
    given.extend((0..WHOLE).map(|n| generate::whole(words, [300, 1_000, MOST_TEXT][n % 3])));
    given.extend((0..FULL).map(|_| generate::full(words, MOST_TEXT)));
    given.extend((0..MAKINGS.len()).map(|n| generate::made(n, words)));
    given.extend((0..WITHOUT_ROWS).map(|_| generate::without_rows(words)));
    // the largest length is too long for here; this room's takes its place
    for long in LONGS.iter().filter(|long| long.bytes == MOST_BYTES) {
        let mut long = *long;
        long.bytes = MOST_TEXT;
        given.push(generate::long(&long, words));
    }
    given.extend((0..BREAKS.count()).map(|n| generate::broken(n, words)));
    given.extend((0..CHANGED).map(|_| generate::changed(words)));
    let entries = given.into_iter().map(Entry::new).collect();
    assert!(
        feed::seed17_draws() == 0,
        "the branch seeded with 17 was reached"
    );
    entries
}
