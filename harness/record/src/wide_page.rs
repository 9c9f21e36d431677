//! What the records of many channels hold, counted for the page.
use crate::call_table::{answered, Answered, Table};
use crate::cuts;
use crate::run_page::refused;
use crate::runs::Entry;
use crate::sampled_page::rows;
use crate::wide::Wide;
use runs::generate::Written;
use runs::{decode, Sums};

pub fn fill(page: String, wide: &Wide) -> String {
    let [held, whole, parting] = cuts::counted(&wide.cuts);
    let table = Table::of(&wide.runs);
    let answers: Vec<Answered> = wide.runs.iter().flat_map(answered).collect();
    let sums = sums(&wide.runs);
    let numbers = [
        ("@WIDE_CUTS", wide.cuts.len()),
        ("@WIDE_NO_CUT", held),
        ("@WIDE_NOT_PARTING", whole),
        ("@WIDE_PARTING", parting),
        ("@WIDE_RUNS", wide.runs.len()),
        ("@WIDE_CALLS", table.calls()),
        ("@WIDE_OUT", refused(&wide.runs, 17)),
        ("@WIDE_TOO_LARGE", refused(&wide.runs, 15)),
        ("@WIDE_UNMADE", table.refused_makings()),
        ("@WIDE_ROWS", answers.iter().map(rows).sum()),
        ("@WIDE_ROUNDED", sums.rounded),
        ("@WIDE_NINE", sums.rounded_at_nine),
        ("@WIDE_FURTHEST", sums.furthest as usize),
        ("@WIDE_TEXTS", wide.texts.len()),
    ];
    let page = page.replace("@WIDE_TABLE\n", &table.rows());
    crate::page::put(page, &numbers)
}

/// What the reports of the runs that are answered show of sums.
fn sums(entries: &[Entry]) -> Sums {
    let mut sums = Sums::default();
    let answered = entries.iter().filter(|e| e.outcome.returned() % 4 == 0);
    for run in answered.filter_map(|e| decode(&e.run)) {
        sums.add(&Written::of(run).sums);
    }
    sums
}
