//! Places in the answers that only arrivals, samples and reports have.
use oracle::Words;
use runs::{decode, Call, ROW_NUMBERS};
use std::ops::Range;

#[derive(Clone, Copy, Debug)]
pub enum Spot {
    /// What became of an arrival.
    Became,
    /// The leaf's index of an accepted arrival, and the evicted one.
    Leaf,
    /// A row that a report writes, and one beyond those.
    Row,
    RowBeyond,
    /// An entry of a sample, and a place beyond those.
    Kept,
    KeptBeyond,
}

/// A byte at such a spot, if the answers have one.
pub fn place(spot: Spot, run: &[u8], answers: &[u8], words: &mut Words) -> Option<usize> {
    let run = decode(run)?;
    let number = |place: usize| {
        let four = answers.get(place..place + 4)?;
        Some(u32::from_le_bytes(four.try_into().ok()?) as usize)
    };
    let mut ranges: Vec<Range<usize>> = vec![];
    for span in run.spans() {
        let from = span.answer.start;
        let Some(call) = span.call else { continue };
        // a refused making leaves its calls unanswered
        let (Some(refusal), Some(second)) = (number(from), number(from + 4)) else {
            continue;
        };
        let end_of = |numbers: usize| from + 8 + 4 * numbers * second;
        ranges.push(match (spot, call) {
            _ if refusal > 0 => continue,
            (Spot::Became, Call::Arrival { .. }) => from + 4..from + 8,
            (Spot::Leaf, Call::Arrival { .. }) => from + 8..from + 16,
            (Spot::Row, Call::Report { .. }) => from + 8..end_of(ROW_NUMBERS),
            (Spot::RowBeyond, Call::Report { .. }) => end_of(ROW_NUMBERS)..span.answer.end,
            (Spot::Kept, Call::Sample) => from + 8..end_of(2),
            (Spot::KeptBeyond, Call::Sample) => end_of(2)..span.answer.end,
            _ => continue,
        });
    }
    ranges.retain(|range| !range.is_empty());
    match ranges.is_empty() {
        true => None,
        false => {
            let any = words.below(ranges.len());
            let range = ranges.swap_remove(any);
            Some(range.start + words.below(range.len()))
        }
    }
}
