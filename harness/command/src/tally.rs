//! What is counted of the texts that a program was compared on.
use crate::{all_equal, difference, reached, Compared, Pieces, Program, HELD_TO};
use std::collections::BTreeMap;
use std::fmt::Display;

/// So many differences are shown.
const SHOWN: usize = 5;

#[derive(Default)]
pub struct Tally {
    pub compared: usize,
    pub in_form: usize,
    /// The bytes that had to be printed.
    pub output_bytes: usize,
    kinds: BTreeMap<&'static str, usize>,
    /// How often each refusal was to be printed.
    refusals: BTreeMap<u32, usize>,
    pub differing: usize,
}

impl Tally {
    /// Counts a text, by its kind and by what has to be printed.
    pub fn count(&mut self, kind: &'static str, in_form: bool, refusals: &[u32], bytes: usize) {
        self.compared += 1;
        self.in_form += usize::from(in_form);
        self.output_bytes += bytes;
        *self.kinds.entry(kind).or_insert(0) += 1;
        for refusal in refusals {
            *self.refusals.entry(*refusal).or_insert(0) += 1;
        }
    }

    /// Holds what the program prints for a text against what it must.
    pub fn hold(
        &mut self,
        name: &str,
        text: &[u8],
        expected: &[u8],
        program: &Program,
        pieces: &Pieces,
    ) -> Result<(), String> {
        let got = program.print(text, pieces)?;
        if got.differs(expected) {
            self.differ(difference(name, text, expected, &got));
        }
        Ok(())
    }

    /// Counts a difference, and shows it if it is one of the first.
    pub fn differ(&mut self, shown: String) {
        self.differing += 1;
        if self.differing <= SHOWN {
            println!("{shown}");
        }
    }

    pub fn print(&self) {
        println!("{HELD_TO}");
        println!("kinds: {}", listed(&self.kinds));
        println!("refusals: {}", listed(&self.refusals));
    }

    /// An error if anything differs or fewer texts were compared than asked for.
    pub fn finish(&self, of: &Compared, asked: usize) -> Result<(), String> {
        all_equal(self.differing, of.not_the_rust)?;
        reached(self.compared, asked, of.texts)
    }
}

fn listed(counts: &BTreeMap<impl Display, usize>) -> String {
    let counts = counts.iter().map(|(what, n)| format!("{what}: {n}"));
    counts.collect::<Vec<_>>().join(", ")
}
