//! Archives from a seeded generator.

/// A key of 64 digits, for rows that are written out.
macro_rules! key {
    () => {
        "000102030405060708090A0B0C0D0E0F101112131415161718191A1B1C1D1E1F"
    };
}

mod big;
mod broken;
mod cut;
mod examples;
mod garbage;
mod keyed;
mod lengths;
mod makings;
mod odd;
mod sizes;
mod small;
mod whole;

pub use big::{archive as big, pool, Big, BIGS};
pub use broken::BREAKS;
pub use examples::{starred, LANTERNS, STARRED};
pub use lengths::LENGTHS;
pub use makings::MAKINGS;
pub use sizes::SIZES;
pub use small::{smalls, SMALLS};

use crate::archive::Archive;
use oracle::Words;
use texts::generate::bytes_changed;

/// An archive for `regrow`.
pub type Given = texts::Given<Archive>;

/// The number of the first archive that is not one of a list.
pub const FIRST_DRAWN: usize = LANTERNS
    + STARRED
    + BREAKS.count()
    + MAKINGS.len()
    + LENGTHS.len()
    + SIZES
    + SMALLS
    + BIGS.len();

/// The n-th archive of a seed: the lanterns' and document 01's, each break of a rule, each making at a limit, each
/// length of a line, each size of an archive, the smallest, the largest, then drawn ones.
pub fn nth(seed: u64, n: usize) -> Given {
    let words = &mut Words::nth(seed, n);
    let breaks_from = LANTERNS + STARRED;
    let makings_from = breaks_from + BREAKS.count();
    let lengths_from = makings_from + MAKINGS.len();
    let sizes_from = lengths_from + LENGTHS.len();
    let smalls_from = sizes_from + SIZES;
    let bigs_from = smalls_from + SMALLS;
    match n {
        n if n < LANTERNS => examples::lanterns().swap_remove(n),
        n if n < breaks_from => starred().swap_remove(n - LANTERNS),
        n if n < makings_from => broken(n - breaks_from, words),
        n if n < lengths_from => made(n - makings_from, words),
        n if n < sizes_from => lengths::given(&LENGTHS[n - lengths_from], words),
        n if n < smalls_from => sizes::given(n - sizes_from, words),
        n if n < bigs_from => smalls().swap_remove(n - smalls_from),
        n if n < FIRST_DRAWN => Given::in_form("big", big(&BIGS[n - bigs_from], words)),
        _ => drawn(words),
    }
}

fn drawn(words: &mut Words) -> Given {
    match words.below(48) {
        0..=7 => broken(words.below(BREAKS.count()), words),
        8..=10 => changed(words),
        11..=13 => cut::given(whole::archive(words), words),
        14 if words.once_in(2) => sizes::given(words.below(SIZES), words),
        14 => lengths::given(&words.one_of(&LENGTHS), words),
        15 => made(words.below(MAKINGS.len()), words),
        16 => garbage::given(words),
        17 => without_rows(words),
        18 => Given::in_form("long", big(&Big::drawn(words), words)),
        _ => Given::in_form("in form", whole::archive(words)),
    }
}

/// A short archive with one rule of form broken, the n-th of `BREAKS`.
fn broken(n: usize, words: &mut Words) -> Given {
    BREAKS.nth(n).given(&whole::short(words), words)
}

/// A short archive with a making at a limit, the n-th of `MAKINGS`.
fn made(n: usize, words: &mut Words) -> Given {
    Given::in_form("making at a limit", makings::archive(MAKINGS[n], words))
}

/// An archive with a few bytes changed anywhere, in form or not.
fn changed(words: &mut Words) -> Given {
    bytes_changed(whole::short(words).bytes(), words)
}

fn without_rows(words: &mut Words) -> Given {
    let mut archive = whole::short(words);
    archive.rows.clear();
    Given::in_form("no op rows", archive)
}
