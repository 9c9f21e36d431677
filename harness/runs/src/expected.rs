//! What `sicklephlox_run` must return and write for given bytes.
use crate::decode::decode;
use crate::driver::Driver;
use crate::layout::{Answer, Run};
use crate::refusals::{making_refusal, OUT_OF_LAYOUT, TOO_FEW_LENT};
use crate::sums::Sums;

/// No more answer bytes than this are lent to damaged runs. A report may ask for 80 gigabytes of rows.
pub const MOST_LENT: usize = 1 << 22;

/// What a run's bytes come to.
#[derive(Clone, Debug, PartialEq)]
pub enum Outcome {
    /// The run is refused with this number, and nothing is written.
    Refused(u32),
    /// These answer bytes are written, and their number returned.
    Answered(Vec<u8>),
}

impl Outcome {
    /// The number that is returned.
    pub fn returned(&self) -> usize {
        match self {
            Outcome::Refused(number) => *number as usize,
            Outcome::Answered(bytes) => bytes.len(),
        }
    }
}

/// The answers of a run: the making's, then one for each call. A refused making has its own only.
pub fn answers(run: &Run) -> Vec<Answer> {
    carried_out(run).0
}

/// The same, and what the run's reports show of sums.
pub fn carried_out(run: &Run) -> (Vec<Answer>, Sums) {
    match Driver::make(&run.making) {
        Err(refusal) => (vec![vec![refusal]], Sums::default()),
        Ok(mut driver) => {
            let calls = run.calls.iter().map(|call| driver.call(call));
            let answers = [vec![0]].into_iter().chain(calls).collect();
            (answers, driver.sums())
        }
    }
}

/// How many answer bytes the run needs.
pub fn needed(run: &Run) -> usize {
    let answer_bytes = |call| crate::Call::answer_bytes(call, &run.making);
    match making_refusal(&run.making) {
        Some(_) => 4,
        None => 4 + run.calls.iter().map(answer_bytes).sum::<usize>(),
    }
}

/// Answers as the bytes that are written.
pub fn bytes_of(answers: &[Answer]) -> Vec<u8> {
    let numbers = answers.iter().flatten();
    numbers.flat_map(|number| number.to_le_bytes()).collect()
}

/// What these bytes come to where `lent` answer bytes are lent.
pub fn outcome(bytes: &[u8], lent: usize) -> Outcome {
    let Some(run) = decode(bytes) else {
        return Outcome::Refused(OUT_OF_LAYOUT);
    };
    let needed = needed(&run);
    if lent < needed {
        return Outcome::Refused(TOO_FEW_LENT);
    }
    let written = bytes_of(&answers(&run));
    assert_eq!(written.len(), needed);
    Outcome::Answered(written)
}
