//! One stretch: what it must come to, and whether what came of a call is that.
use crate::asked::Asked;
use chacha20::WORD_BYTES;
use port::{Filled, Source, WordsLent};
use std::fmt::Write;

/// So many words are shown from the first that differs on.
const SHOWN: usize = 4;

/// The words, or the refusal.
pub type Expected = Result<Vec<u64>, u32>;

impl Asked {
    pub fn expected(&self) -> Expected {
        let mut words = vec![0; self.length];
        chacha20::stretch(&self.key, self.start, &mut words).map(|()| words)
    }

    /// Key and list lent in this turn, and filled by the source.
    pub fn lent_to(&self, source: Source, turn: usize) -> WordsLent {
        let mut lent = WordsLent::new(&self.key, self.length, turn);
        lent.call(source, self.start);
        lent
    }

    pub fn filled_by(&self, source: Source, turn: usize) -> Filled {
        self.lent_to(source, turn).filled()
    }

    /// What is wrong with what came of a call, both answers with it; none where nothing is.
    pub fn difference(&self, expected: &Expected, got: &Filled) -> Option<String> {
        let (returned, words) = match expected {
            Ok(words) => (WORD_BYTES * words.len(), &words[..]),
            Err(refusal) => (*refusal as usize, &[][..]),
        };
        if got.returned == returned && got.written == words && got.harm.is_none() {
            return None;
        }
        let same = |(a, b): &(&u64, &u64)| a == b;
        let place = words.iter().zip(&got.written).take_while(same).count();
        let told = |returned: usize, words: &[u64]| {
            let shown: Vec<_> = words.iter().skip(place).take(SHOWN).collect();
            match shown.is_empty() {
                true => format!("returned {returned}"),
                false => format!("returned {returned}, from place {place} on {shown:016X?}"),
            }
        };
        let mut text = format!(
            "key {}, start {}, length {}\n  expected {}\n  got      {}",
            digits(&self.key),
            self.start,
            self.length,
            told(returned, words),
            told(got.returned, &got.written)
        );
        if let Some(harm) = &got.harm {
            write!(text, "\n  changed  {harm}").expect("a string takes every text");
        }
        Some(text)
    }

    /// What differs in the words that this stretch and another of the same key have in common, as a source fills both;
    /// none where nothing does. The other begins in this one, and both are in the range.
    pub fn disagrees(&self, other: &Asked, source: Source, turn: usize) -> Option<String> {
        let (ours, theirs) = (self.filled_by(source, turn), other.filled_by(source, turn));
        let skipped = ((other.start - self.start) as usize).min(ours.written.len());
        let mut both = ours.written[skipped..].iter().zip(&theirs.written);
        let place = both.position(|(our, their)| our != their)?;
        let (our, their) = (ours.written[skipped + place], theirs.written[place]);
        Some(format!(
            "key {}: from start {} of {} words word {} is {our:016X}, from start {} of {} words it is {their:016X}",
            digits(&self.key),
            self.start,
            self.length,
            other.start + place as u64,
            other.start,
            other.length,
        ))
    }
}

fn digits(key: &[u8]) -> String {
    key.iter().map(|byte| format!("{byte:02X}")).collect()
}
