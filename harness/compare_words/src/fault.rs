//! Wrong sources put in the port's place, and buffers and numbers spoiled behind it, to show that the comparison
//! notices them.
use crate::asked::{self, Asked};
use crate::compared::Expected;
use crate::judge::beginning_in;
use crate::wrong::{OTHERWISE_WRONG, SAME_BLOCK, START_NOT_ADDED, WORDS_WRONG};
use chacha20::WORD_BYTES;
use command::{Faults, Shows, Tries};
use port::{words_of_port, Filled, Source, WordsLent};

/// Faults are tried on so many stretches, of no more words than this.
const STRETCHES: usize = 3_000;
const MOST_WORDS: usize = 64;

/// A stretch, what it must come to, and what the port makes of it.
struct Known {
    asked: Asked,
    expected: Expected,
    of_port: Filled,
}

/// What a port does wrong besides its words.
type Spoils = fn(&mut WordsLent, &Asked);

const SPOILED: [(&str, Spoils); 8] = [
    ("the word before the list", |lent, _| lent.spoil_words(-1)),
    ("the word after the list", |lent, asked| {
        lent.spoil_words(asked.length as isize)
    }),
    ("a word far after the list", |lent, asked| {
        lent.spoil_words(asked.length as isize + 60)
    }),
    ("the byte before the key", |lent, _| lent.spoil_key(-1)),
    ("the byte after the key", |lent, asked| {
        lent.spoil_key(asked.key.len() as isize)
    }),
    ("a byte of the key", |lent, asked| {
        // the byte after it where it has none
        lent.spoil_key(asked.key.len() as isize / 2)
    }),
    ("a word more returned", |lent, asked| {
        lent.spoil_returned(WORD_BYTES * (asked.length + 1))
    }),
    ("other than a multiple of 8 returned", |lent, asked| {
        lent.spoil_returned(WORD_BYTES * asked.length + 4)
    }),
];

/// An error if a fault goes unnoticed.
pub fn run(seed: u64) -> Result<(), String> {
    let mut faults = Faults::default();
    let short = asked::stretches(seed).filter(|asked| asked.length <= MOST_WORDS);
    let known: Vec<Known> = short.take(STRETCHES).map(Known::of).collect();
    for (what, source) in WORDS_WRONG.into_iter().chain(OTHERWISE_WRONG) {
        faults.tell(what, "stretches", answered(&known, source), Shows::Always);
    }
    for (what, spoils) in SPOILED {
        faults.tell(what, "stretches", spoiled(&known, spoils), Shows::Always);
    }
    for (what, source) in [
        ("the start not added, by overlaps alone", START_NOT_ADDED),
        ("the block not advanced, by overlaps alone", SAME_BLOCK),
    ] {
        faults.tell(
            what,
            "overlaps",
            overlapped(&known, source),
            Shows::Sometimes,
        );
    }
    faults.finish()
}

impl Known {
    fn of(asked: Asked) -> Self {
        Known {
            expected: asked.expected(),
            of_port: asked.filled_by(words_of_port, 0),
            asked,
        }
    }

    fn noticed(&self, got: &Filled) -> bool {
        self.asked.difference(&self.expected, got).is_some()
    }
}

/// A fault is made where the wrong source answers otherwise than the port.
fn answered(known: &[Known], source: Source) -> Tries {
    let mut tries = Tries::default();
    for one in known {
        let got = one.asked.filled_by(source, 0);
        tries.made += usize::from(got != one.of_port);
        tries.noticed += usize::from(one.noticed(&got));
    }
    tries
}

fn spoiled(known: &[Known], spoils: Spoils) -> Tries {
    let mut tries = Tries::default();
    for one in known {
        let mut lent = one.asked.lent_to(words_of_port, 0);
        spoils(&mut lent, &one.asked);
        tries.made += 1;
        tries.noticed += usize::from(one.noticed(&lent.filled()));
    }
    tries
}

/// A source held against itself, where one stretch begins in another.
fn overlapped(known: &[Known], source: Source) -> Tries {
    let mut tries = Tries::default();
    let taken = known.iter().filter(|one| one.expected.is_ok());
    for (turn, one) in taken.enumerate() {
        if let Some(other) = beginning_in(&one.asked, turn) {
            tries.made += 1;
            let disagrees = one.asked.disagrees(&other, source, turn);
            tries.noticed += usize::from(disagrees.is_some());
        }
    }
    tries
}
