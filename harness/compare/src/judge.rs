//! Lends runs to the port and holds what it returns, writes and leaves against what it must.
use crate::chains;
use crate::difference::{self, Difference};
use crate::inputs::Inputs;
use crate::tally::{Least, Tally};
use command::all_equal;
use port::{Called, Lending};
use runs::{bytes_of, check, outcome, page, Checked, Outcome, MOST_LENT};

/// So many differences are shown in full.
const SHOWN: usize = 5;

/// Whoever answers a run: the port, or the port with a fault.
pub trait Answers {
    fn call(&mut self, run: &[u8], lent: usize) -> Called;
}

/// The port as it is.
#[derive(Default)]
pub struct Plain {
    turn: usize,
}

impl Answers for Plain {
    fn call(&mut self, run: &[u8], lent: usize) -> Called {
        self.turn += 1;
        let mut lending = Lending::new(run, lent, self.turn);
        lending.call();
        lending.called()
    }
}

pub struct Judge<A> {
    pub answers: A,
    pub tally: Tally,
    /// Whether differences are shown.
    pub loud: bool,
}

impl<A: Answers> Judge<A> {
    pub fn new(answers: A) -> Self {
        Judge {
            answers,
            tally: Tally::default(),
            loud: true,
        }
    }

    /// Compares the worked runs of docs/LAYOUT.md with what the page says of them.
    pub fn look_at_page(&mut self) -> Result<(), String> {
        for shown in page::shown()? {
            self.tally.shown += 1;
            let name = format!("call {} of docs/LAYOUT.md", self.tally.shown);
            self.hold(&name, &shown.run, shown.lent, &shown.outcome);
        }
        Ok(())
    }

    /// Compares chains of leaves on as little stack as docs/LAYOUT.md asks for.
    pub fn look_at_chains(&mut self) -> Result<(), String> {
        for chain in chains::all() {
            self.tally.chains += 1;
            let name = format!("chain {}", self.tally.chains);
            let run = chain.encode();
            let expected = outcome(&run, MOST_LENT);
            let lent = expected.returned();
            let called = chains::on_small_stack(&run, lent)?;
            self.hold_called(&name, &run, lent, &expected, &called);
        }
        Ok(())
    }

    /// Compares a whole run, lent enough and too little, and damaged ones.
    pub fn look(&mut self, inputs: &Inputs) {
        let run = inputs.written.run.encode();
        let expected = bytes_of(&inputs.written.answers);
        let needs = expected.len();
        self.tally.add(&inputs.written);
        self.tally.answer_bytes += needs;
        let name = format!("run {}", inputs.number);
        let more = [0, 0, 1, 3, 4, 100][inputs.number % 6];
        self.hold(&name, &run, needs + more, &Outcome::Answered(expected));
        for lent in [needs - 1, needs - 4, 0] {
            self.hold_too_few(&name, &run, lent);
        }
        for damaged in &inputs.damaged {
            self.look_at_damaged(&format!("damaged {name}"), damaged);
        }
    }

    fn look_at_damaged(&mut self, name: &str, bytes: &[u8]) {
        self.tally.damaged += 1;
        let expected = outcome(bytes, MOST_LENT);
        match check(bytes) {
            Checked::OutOfLayout => {
                assert_eq!(expected, Outcome::Refused(17));
                self.hold_out_of_layout(name, bytes);
            }
            Checked::Needs(needs) if needs > MOST_LENT => {
                // as many bytes are lent as 32 bits have left of the number
                let left = needs as u32 as usize;
                for lent in [0, 4, left.min(MOST_LENT)] {
                    self.hold_too_few(name, bytes, lent);
                }
            }
            Checked::Needs(needs) => {
                assert_eq!(expected.returned(), needs);
                self.tally.answer_bytes += needs;
                self.hold(name, bytes, needs, &expected);
                self.hold_too_few(name, bytes, needs - 1);
            }
        }
    }

    fn hold_out_of_layout(&mut self, name: &str, bytes: &[u8]) {
        self.tally.out_of_layout += 1;
        for lent in [0, 4, bytes.len() * 8] {
            self.hold(name, bytes, lent, &Outcome::Refused(17));
        }
    }

    fn hold_too_few(&mut self, name: &str, bytes: &[u8], lent: usize) {
        self.tally.too_few += 1;
        self.hold(name, bytes, lent, &Outcome::Refused(15));
    }

    /// One call of the port.
    fn hold(&mut self, name: &str, run: &[u8], lent: usize, expected: &Outcome) {
        let called = self.answers.call(run, lent);
        self.hold_called(name, run, lent, expected, &called);
    }

    fn hold_called(
        &mut self,
        name: &str,
        run: &[u8],
        lent: usize,
        expected: &Outcome,
        called: &Called,
    ) {
        let equal = match expected {
            Outcome::Refused(refusal) => called.returned == *refusal as usize,
            Outcome::Answered(bytes) => called.written == *bytes,
        };
        if equal && called.returned == expected.returned() && called.harm.is_none() {
            return;
        }
        self.tally.differing += 1;
        if self.loud && self.tally.differing <= SHOWN {
            let difference = Difference {
                name,
                run,
                lent,
                expected,
                called,
            };
            println!("{}", difference::text(&difference));
        }
    }

    /// The counts, and an error if anything differs or less was compared than has to be.
    pub fn finish(&self, least: &Least) -> Result<(), String> {
        self.tally.print();
        let otherwise = "the port's answers are not those of the Rust";
        all_equal(self.tally.differing, otherwise)?;
        self.tally.reaches(least)
    }
}
