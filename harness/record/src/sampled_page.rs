//! What the recorded runs with arrivals and reports hold, counted for the page.
use crate::call_table::{answered, Answered, Table};
use crate::run_page::refused;
use crate::runs::Entry;
use runs::Call;

pub fn fill(page: String, entries: &[Entry]) -> String {
    let table = Table::of(entries);
    let answers: Vec<Answered> = entries.iter().flat_map(answered).collect();
    let became = |what: u32| {
        let is = |a: &&Answered| a.kind == 6 && a.numbers[0] == 0 && a.numbers[1] == what;
        answers.iter().filter(is).count()
    };
    let numbers = [
        ("@WITH_RUNS", entries.len()),
        ("@WITH_CALLS", table.calls()),
        ("@WITH_BOTH", with_both(entries)),
        ("@WITH_OUT", refused(entries, 17)),
        ("@WITH_TOO_LARGE", refused(entries, 15)),
        ("@WITH_UNMADE", table.refused_makings()),
        ("@WITH_PASSING", became(0)),
        ("@WITH_STARTING", became(1)),
        ("@WITH_EVICTING", became(2)),
        ("@WITH_ROWS", answers.iter().map(rows).sum()),
        ("@WITH_LENT", answers.iter().map(lent).sum()),
        ("@WITH_FULL", full_samples(entries)),
    ];
    let page = page.replace("@WITH_TABLE\n", &table.rows());
    crate::page::put(page, &numbers)
}

/// The rows that a report writes.
pub fn rows(answer: &Answered) -> usize {
    match answer.kind {
        7 => answer.numbers[1] as usize,
        _ => 0,
    }
}

/// The rows that it is lent.
fn lent(answer: &Answered) -> usize {
    match answer.call {
        Some(Call::Report { rows, .. }) => rows as usize,
        _ => 0,
    }
}

/// How many runs have arrivals and reports.
fn with_both(entries: &[Entry]) -> usize {
    let has = |e: &Entry, kind: u32| answered(e).iter().any(|a| a.kind == kind);
    let both = |e: &&Entry| has(e, 6) && has(e, 7);
    entries.iter().filter(both).count()
}

/// In how many runs the sample is looked at when it is full.
fn full_samples(entries: &[Entry]) -> usize {
    let full = |a: &Answered| a.kind == 11 && a.numbers[1] == a.capacity;
    let any_full = |e: &&Entry| answered(e).iter().any(full);
    entries.iter().filter(any_full).count()
}
