//! Faults made on purpose, each in some runs, to show that the comparison notices them.
mod answered;
mod handed;
mod masses;
mod sums;

use crate::inputs::Source;
use crate::judge::{Answers, Judge};
use answered::{place, Spot};
use command::{Faults, Shows, Tries};
use handed::{with_other, Other};
use masses::Column;
use oracle::Words;
use port::{Called, Lending};
use sums::Added;

/// Each fault is tried in so many runs that it can touch.
const TRIES: usize = 40;
/// Runs to look through for them.
const RUNS: usize = 400;

/// What goes wrong.
#[derive(Clone, Copy, Debug)]
enum Fault {
    AnswerBit,
    BytesBeyond,
    BytesOfRefused,
    GuardBefore,
    GuardAfter,
    Run,
    Returned,
    /// A bit of an answer at a spot that only arrivals, samples and reports have.
    Answered(Spot),
    /// The Rust's own mass in place of the count.
    RustMass(Column),
    /// The probability of another sum in place of the computed one's.
    Sum(Added),
    /// The port is handed another number. One that doesn't decide need not show.
    Handed(Other),
}

impl Fault {
    fn shows(self) -> Shows {
        match self {
            Fault::Handed(Other::Taken | Other::Refused) => Shows::Always,
            Fault::Handed(_) => Shows::Sometimes,
            _ => Shows::Always,
        }
    }
}

const FAULTS: [Fault; 25] = [
    Fault::AnswerBit,
    Fault::BytesBeyond,
    Fault::BytesOfRefused,
    Fault::GuardBefore,
    Fault::GuardAfter,
    Fault::Run,
    Fault::Returned,
    Fault::Handed(Other::Word),
    Fault::Handed(Other::ArrivalWord),
    Fault::Handed(Other::Start),
    Fault::Handed(Other::Weight),
    Fault::Handed(Other::Query),
    Fault::Answered(Spot::Became),
    Fault::Answered(Spot::Leaf),
    Fault::Answered(Spot::Row),
    Fault::Answered(Spot::RowBeyond),
    Fault::Answered(Spot::Kept),
    Fault::Answered(Spot::KeptBeyond),
    Fault::RustMass(Column::Branch),
    Fault::RustMass(Column::Row),
    Fault::Sum(Added::Whole),
    Fault::Sum(Added::InOneChain),
    Fault::Sum(Added::FromTheLast),
    Fault::Handed(Other::Taken),
    Fault::Handed(Other::Refused),
];

/// The port with one fault, done once at most.
struct Faulty {
    fault: Fault,
    words: Words,
    turn: usize,
    done: bool,
}

impl Answers for Faulty {
    fn call(&mut self, run: &[u8], lent: usize) -> Called {
        self.turn += 1;
        let handed = match self.fault {
            Fault::Handed(other) if !self.done => with_other(other, run, &mut self.words),
            _ => None,
        };
        self.done |= handed.is_some();
        let mut lending = Lending::new(handed.as_deref().unwrap_or(run), lent, self.turn);
        lending.call();
        if !self.done {
            self.spoil(&mut lending, run, lent);
        }
        lending.called()
    }
}

impl Faulty {
    fn spoil(&mut self, lending: &mut Lending, run: &[u8], lent: usize) {
        let returned = lending.returned();
        let refused = !returned.is_multiple_of(4);
        let any = |words: &mut Words, below: usize| words.below(below) as isize;
        match self.fault {
            Fault::AnswerBit if !refused => lending.spoil_answers(any(&mut self.words, returned)),
            Fault::BytesBeyond if !refused && returned < lent => {
                lending.spoil_answers(lent as isize - 1)
            }
            Fault::BytesOfRefused if refused && lent > 0 => {
                lending.spoil_answers(any(&mut self.words, lent))
            }
            Fault::GuardBefore => lending.spoil_answers(-1 - any(&mut self.words, 60)),
            Fault::GuardAfter => lending.spoil_answers(lent as isize + any(&mut self.words, 60)),
            Fault::Run if !run.is_empty() => lending.spoil_run(any(&mut self.words, run.len())),
            Fault::Returned => lending.spoil_returned(returned + 4),
            Fault::Answered(spot) if !refused => {
                let answers = lending.called().written;
                match place(spot, run, &answers, &mut self.words) {
                    Some(place) => lending.spoil_answers(place as isize),
                    None => return,
                }
            }
            Fault::RustMass(column) if !refused => {
                match masses::place(column, run, &mut self.words) {
                    Some((place, mass)) => lending.write_answers(place, &mass.to_le_bytes()),
                    None => return,
                }
            }
            Fault::Sum(added) if !refused => match sums::place(added, run, &mut self.words) {
                Some((place, bits)) => lending.write_answers(place, &bits.to_le_bytes()),
                None => return,
            },
            _ => return,
        }
        self.done = true;
    }
}

/// Tries every fault; an error if one goes unnoticed.
pub fn run(seed: u64) -> Result<(), String> {
    let source = Source::new(seed);
    let mut faults = Faults::default();
    for fault in FAULTS {
        faults.tell(fault, "runs", try_fault(fault, &source)?, fault.shows());
    }
    faults.finish()
}

fn try_fault(fault: Fault, source: &Source) -> Result<Tries, String> {
    Tries::of(RUNS, TRIES, |n| {
        let faulty = Faulty {
            fault,
            words: Words::new(n as u64),
            turn: n,
            done: false,
        };
        let mut judge = Judge::new(faulty);
        judge.loud = false;
        let inputs = match fault {
            // few short runs have such sums, and few such makings; the first runs have both
            Fault::Sum(_) | Fault::Handed(Other::Taken) => source.draw(n),
            _ => source.draw_short(n),
        };
        judge.look(&inputs);
        let noticed = judge.tally.differing > 0;
        Ok(judge.answers.done.then_some(noticed))
    })
}
