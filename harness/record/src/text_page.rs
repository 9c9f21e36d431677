//! What the recorded texts hold, counted for the page.
use crate::page::grouped;
use crate::texts::{Entry, MOST_TEXT};
use std::collections::BTreeMap;
use texts::{form, Outcome};

pub fn fill(page: String, entries: &[Entry]) -> String {
    let of = |count: fn(&Entry) -> usize| entries.iter().map(count);
    let numbers = [
        ("@TEXTS", entries.len()),
        ("@TEXTS_IN_FORM", of(in_form).sum()),
        ("@OP_ROWS", of(rows).sum()),
        ("@TEXTS_UNMADE", of(unmade).sum()),
        ("@MOST_TEXT", MOST_TEXT),
        (
            "@LONGEST_OUTPUT",
            of(|e| e.output().len()).max().unwrap_or(0),
        ),
        ("@LARGEST_TREE", of(nodes).max().unwrap_or(0)),
        ("@NODES", of(nodes).sum()),
    ];
    let page = page
        .replace("@TEXT_TABLE\n", &kinds(entries))
        .replace("@REFUSALS\n", &refusals(entries));
    crate::page::put(page, &numbers)
}

fn in_form(entry: &Entry) -> usize {
    usize::from(entry.outcome.in_form())
}

fn unmade(entry: &Entry) -> usize {
    usize::from(matches!(entry.outcome, Outcome::Unmade(_)))
}

/// How many op rows a text in form has.
fn rows(entry: &Entry) -> usize {
    form::read(&entry.text).map_or(0, |text| text.rows.len())
}

/// How many nodes are printed, after the names line.
fn nodes(entry: &Entry) -> usize {
    match &entry.outcome {
        Outcome::Listed { list, .. } => list.lines().count() - 1,
        _ => 0,
    }
}

/// A row for each kind in the order of the file: how many, and how many of them in form.
fn kinds(entries: &[Entry]) -> String {
    let mut counts: Vec<(&str, usize, usize)> = Vec::new();
    for entry in entries {
        match counts.iter_mut().find(|count| count.0 == entry.kind) {
            Some(count) => {
                count.1 += 1;
                count.2 += in_form(entry);
            }
            None => counts.push((entry.kind, 1, in_form(entry))),
        }
    }
    let row = |(kind, all, good): (&str, usize, usize)| format!("| {kind} | {all} | {good} |\n");
    counts.into_iter().map(row).collect()
}

/// A row for each refusal: how often it is printed.
fn refusals(entries: &[Entry]) -> String {
    let mut counts = BTreeMap::new();
    for refusal in entries.iter().flat_map(|entry| entry.outcome.refusals()) {
        *counts.entry(refusal).or_insert(0usize) += 1;
    }
    let row = |(refusal, n): (u32, usize)| format!("| {refusal} | {} |\n", grouped(n));
    counts.into_iter().map(row).collect()
}
