//! The page beside the recorded file: what a record is, and what the records hold, counted.
use crate::{
    cuts, intervals, record, run_page, sampled_page, samples, text_page, wide_page, Recorded,
};
use floats::{Function, FUNCTIONS};

pub fn make(recorded: &Recorded) -> String {
    let [held, whole, parting] = cuts::counted(&recorded.cuts);
    let sequences = intervals::counted(&recorded.intervals);
    let samples = samples::counted(&recorded.samples);
    let numbers = [
        ("@RECORDS", recorded.bytes().len()),
        ("@ROOM", record::ROOM),
        ("@CUTS", recorded.cuts.len()),
        ("@CUTS_DRAWN", 2 * recorded.cuts.len()),
        ("@NO_CUT", held),
        ("@NOT_PARTING", whole),
        ("@PARTING", parting),
        ("@SEQUENCES", recorded.intervals.len()),
        ("@GETS", sequences.gets),
        ("@NONE_LEFT", sequences.none_left),
        ("@RELEASES", sequences.releases),
        ("@LOOKS", sequences.looks),
        ("@FEWEST_CALLS", sequences.fewest_calls),
        ("@MOST_CALLS", sequences.most_calls),
        ("@SAMPLES", recorded.samples.len()),
        ("@ARRIVALS", samples.arrivals),
        ("@PASSING", samples.passing),
        ("@STARTING", samples.starting),
        ("@EVICTING", samples.evicting),
        ("@EVICTIONS", samples.evictions),
        ("@EMPTIED", samples.emptied),
        ("@SAMPLE_LOOKS", samples.looks),
        ("@SAMPLES_FULL", samples.full),
        ("@FEWEST_ARRIVALS", samples.fewest_arrivals),
        ("@MOST_ARRIVALS", samples.most_arrivals),
    ];
    let page = include_str!("page.md").replace("@FLOAT_TABLE\n", &float_rows(recorded));
    let page = run_page::fill(page, &recorded.runs);
    let page = sampled_page::fill(page, &recorded.sampled_runs);
    let page = wide_page::fill(page, &recorded.wide);
    put(text_page::fill(page, &recorded.texts), &numbers)
}

/// A row for each function of floats: how many inputs, in how many records.
fn float_rows(recorded: &Recorded) -> String {
    let row = |function: &Function| {
        let of = recorded.floats.iter().filter(|r| r.kind == function.kind);
        let inputs: usize = of.clone().map(|r| r.given.len() / 12).sum();
        let (kind, name) = (function.kind, function.name);
        format!(
            "| {kind} | `{name}` | {} | {} |\n",
            grouped(inputs),
            of.count()
        )
    };
    FUNCTIONS.iter().map(row).collect()
}

/// The page with each number in the place of its name. Longer names go first, as one may begin another.
pub fn put(page: String, numbers: &[(&str, usize)]) -> String {
    let mut sorted = numbers.to_vec();
    sorted.sort_by_key(|(name, _)| std::cmp::Reverse(name.len()));
    let fill = |page: String, (name, number): &(&str, usize)| page.replace(name, &grouped(*number));
    sorted.iter().fold(page, fill)
}

/// A number with a comma before every three digits.
pub fn grouped(number: usize) -> String {
    let digits = number.to_string();
    let mut text = String::new();
    for (place, digit) in digits.chars().enumerate() {
        if place > 0 && (digits.len() - place).is_multiple_of(3) {
            text.push(',');
        }
        text.push(digit);
    }
    text
}
