//! What the recorded bare runs hold, counted for the page.
use crate::call_table::{answered, Table};
use crate::runs::Entry;
use runs::{decode, Outcome};

pub fn fill(page: String, entries: &[Entry]) -> String {
    let table = Table::of(entries);
    let numbers = [
        ("@RUNS", entries.len()),
        ("@CALLS", table.calls()),
        ("@RUNS_OUT", refused(entries, 17)),
        ("@RUNS_TOO_LARGE", refused(entries, 15)),
        ("@RUNS_UNMADE", table.refused_makings()),
        ("@LONGEST_RUN", largest(entries, |e| e.run.len())),
        (
            "@LONGEST_ANSWERS",
            largest(entries, |e| e.outcome.returned()),
        ),
        ("@FULL", full_trees(entries)),
    ];
    crate::page::put(page.replace("@CALL_TABLE\n", &table.rows()), &numbers)
}

pub fn largest(entries: &[Entry], size: fn(&Entry) -> usize) -> usize {
    entries.iter().map(size).max().unwrap_or(0)
}

/// How many runs are refused with this number.
pub fn refused(entries: &[Entry], refusal: u32) -> usize {
    let is = |e: &&Entry| e.outcome == Outcome::Refused(refusal);
    entries.iter().filter(is).count()
}

/// How many runs have a tree of 256 leaves, and an add refused because it is full.
fn full_trees(entries: &[Entry]) -> usize {
    let largest = |e: &&Entry| decode(&e.run).is_some_and(|run| run.making.capacity == 256);
    let full = |e: &&Entry| answered(e).iter().any(|answer| answer.numbers[0] == 10);
    entries.iter().filter(largest).filter(full).count()
}
