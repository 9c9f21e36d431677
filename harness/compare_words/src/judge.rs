//! Holds the port against what the words must be, stretch by stretch, and against itself where two stretches overlap.
use crate::asked::Asked;
use chacha20::{is_stretch, KEY_LENGTH, PAST_THE_END};
use command::reached;
use oracle::Words;
use port::words_of_port;

/// No fewer words may be compared.
const LEAST: usize = 1_000_000;

/// So many differences are shown.
const SHOWN: usize = 5;

/// Of so many stretches one is asked for in two ways.
const OVERLAPPING: usize = 4;

/// What was compared so far.
#[derive(Default)]
pub struct Judge {
    stretches: usize,
    words: usize,
    bad_keys: usize,
    past_the_end: usize,
    overlaps: usize,
    differing: usize,
}

impl Judge {
    pub fn words(&self) -> usize {
        self.words
    }

    pub fn look(&mut self, asked: &Asked) {
        let turn = self.stretches;
        self.stretches += 1;
        let expected = asked.expected();
        match &expected {
            Ok(words) => self.words += words.len(),
            Err(KEY_LENGTH) => self.bad_keys += 1,
            Err(PAST_THE_END) => self.past_the_end += 1,
            Err(other) => panic!("no refusal of words: {other}"),
        }
        let got = asked.filled_by(words_of_port, turn);
        self.differ(asked.difference(&expected, &got));
        if turn.is_multiple_of(OVERLAPPING) && expected.is_ok() {
            self.overlap(asked, turn);
        }
    }

    /// The same stretch asked for from a word in it on, up to some words before or after its end.
    fn overlap(&mut self, asked: &Asked, turn: usize) {
        let Some(other) = beginning_in(asked, turn) else {
            return;
        };
        self.overlaps += 1;
        self.differ(asked.disagrees(&other, words_of_port, turn));
        let got = other.filled_by(words_of_port, turn);
        self.differ(other.difference(&other.expected(), &got));
    }

    fn differ(&mut self, difference: Option<String>) {
        let Some(shown) = difference else {
            return;
        };
        self.differing += 1;
        if self.differing <= SHOWN {
            println!("{shown}");
        }
    }

    /// The last line, and an error if anything differs or too few words were compared.
    pub fn finish(self) -> Result<(), String> {
        println!(
            "refused: {} keys of other lengths, {} stretches past the end; {} stretches asked for from two starts",
            self.bad_keys, self.past_the_end, self.overlaps
        );
        let Judge {
            stretches,
            words,
            differing,
            ..
        } = self;
        println!("words: {words} words of {stretches} stretches compared, {differing} differ");
        if differing > 0 {
            return Err("the port's words are not as they must be".into());
        }
        reached(words, LEAST, "words")?;
        reached(self.bad_keys, 1, "keys of other lengths")?;
        reached(self.past_the_end, 1, "stretches past the end")?;
        reached(self.overlaps, 1, "overlaps")
    }
}

/// A stretch that begins in this one; none where this is empty or no key has the other.
pub fn beginning_in(asked: &Asked, turn: usize) -> Option<Asked> {
    if asked.length == 0 {
        return None;
    }
    let mut words = Words::new(turn as u64);
    let skipped = words.below(asked.length);
    let start = asked.start + skipped as u64;
    let length = 1 + words.below(asked.length - skipped + 9);
    is_stretch(start, length).then(|| Asked {
        key: asked.key.clone(),
        start,
        length,
    })
}
