//! Texts from a seeded generator.
pub mod broken;
mod changed;
mod example;
mod full;
mod long;
mod makings;
mod odd;
mod small;
mod whole;

pub use broken::BREAKS;
pub use changed::given as bytes_changed;
pub use example::document;
pub use long::{ones, text as long, LONGS};
pub use makings::{MAKINGS, WIDE_MAKINGS};
pub use odd::{coordinate as odd_coordinate, index as odd_index, put_rows_in, EDGE};
pub use small::{smalls, SMALLS};
pub use whole::{too_large_share, whole as whole_coordinate, MOST};

use crate::text::Text;
use oracle::Words;

/// The largest room.
const FULL: usize = crate::form::MOST_BYTES;

/// A text for `treelist`.
pub type Given = crate::Given<Text>;

/// The n-th text of a seed: document 01's, each break of a rule, each making at a limit, each long
/// text, each small one, then drawn ones.
pub fn nth(seed: u64, n: usize) -> Given {
    let mut words = Words::nth(seed, n);
    let makings_from = 1 + BREAKS.count();
    let wide_from = makings_from + MAKINGS.len();
    let longs_from = wide_from + WIDE_MAKINGS.len();
    let smalls_from = longs_from + LONGS.len();
    match n {
        0 => document(),
        n if n < makings_from => broken(n - 1, &mut words),
        n if n < wide_from => made(n - makings_from, &mut words),
        n if n < longs_from => made_wide(n - wide_from, &mut words),
        n if n < smalls_from => long(&LONGS[n - longs_from], &mut words),
        n if n < FIRST_DRAWN => smalls().swap_remove(n - smalls_from),
        _ => drawn(&mut words),
    }
}

/// The number of the first text that is not one of a list.
pub const FIRST_DRAWN: usize =
    1 + BREAKS.count() + MAKINGS.len() + WIDE_MAKINGS.len() + LONGS.len() + SMALLS;

fn drawn(words: &mut Words) -> Given {
    match words.below(24) {
        0..=4 => broken(words.below(BREAKS.count()), words),
        5 | 6 => changed(words),
        7 => long(&words.one_of(&LONGS), words),
        8 => without_rows(words),
        9..=11 => full(words, FULL),
        _ => {
            let room = words.one_of(&[300, 1_000, 4_096, 4_096, 12_000, FULL, FULL]);
            whole(words, room)
        }
    }
}

/// A text in form, with at most this many bytes.
pub fn whole(words: &mut Words, room: usize) -> Given {
    Given::in_form("in form", whole::text(words, room))
}

/// A text that fills its tree, as far as so many bytes go.
pub fn full(words: &mut Words, room: usize) -> Given {
    Given::in_form("full tree", full::text(words, room))
}

/// A short text with one rule of form broken, the n-th of `BREAKS`.
pub fn broken(n: usize, words: &mut Words) -> Given {
    let room = words.one_of(&[100, 300, 1_000, 2_000]);
    let text = whole::text(words, room);
    BREAKS.nth(n).given(&text, words)
}

/// A short text with a making at a limit, the n-th of `MAKINGS`.
pub fn made(n: usize, words: &mut Words) -> Given {
    Given::in_form("making at a limit", makings::text(MAKINGS[n], words))
}

/// A short text with more channels than the program prints, the n-th of `WIDE_MAKINGS`.
pub fn made_wide(n: usize, words: &mut Words) -> Given {
    Given::in_form(
        "more than 8 channels",
        makings::text(WIDE_MAKINGS[n], words),
    )
}

/// A short text with a few bytes changed anywhere, in form or not.
pub fn changed(words: &mut Words) -> Given {
    let room = words.one_of(&[100, 300, 1_000]);
    changed::given(whole::text(words, room).bytes(), words)
}

/// A text without op rows.
pub fn without_rows(words: &mut Words) -> Given {
    Given::in_form("no op rows", whole::without_rows(words))
}
