//! Records answers of the unchanged Rust, for the port's own test to replay.
//!
//!   record write CRATES    writes the recorded file below the folder CRATES, and the page beside it
//!   record check CRATES    makes both again and compares them with the committed ones, byte for
//!                          byte
#![forbid(unsafe_code)]

mod call_table;
mod cuts;
mod floats;
mod intervals;
mod page;
mod record;
mod run_page;
mod runs;
mod sampled_page;
mod sampled_runs;
mod samples;
mod text_page;
mod texts;
mod wide;
mod wide_page;

use record::Record;
use std::path::{Path, PathBuf};
use std::process::ExitCode;
use wide::Wide;

fn main() -> ExitCode {
    let arguments: Vec<String> = std::env::args().skip(1).collect();
    let done = match arguments.iter().map(String::as_str).collect::<Vec<_>>()[..] {
        ["write", crates] => write(Path::new(crates)),
        ["check", crates] => check(Path::new(crates)),
        _ => Err("usage: record write CRATES | record check CRATES".into()),
    };
    match done {
        Ok(()) => ExitCode::SUCCESS,
        Err(why) => {
            eprintln!("record: {why}");
            ExitCode::FAILURE
        }
    }
}

/// All that is recorded, by its kinds.
struct Recorded {
    cuts: Vec<Record>,
    intervals: Vec<Record>,
    runs: Vec<runs::Entry>,
    texts: Vec<texts::Entry>,
    floats: Vec<Record>,
    samples: Vec<Record>,
    sampled_runs: Vec<runs::Entry>,
    wide: Wide,
}

impl Recorded {
    fn new() -> Self {
        Recorded {
            cuts: cuts::records(),
            intervals: intervals::records(),
            runs: runs::entries(),
            texts: texts::entries(),
            floats: floats::records(),
            samples: samples::records(),
            sampled_runs: sampled_runs::entries(),
            wide: Wide::new(),
        }
    }

    /// The records in the order of the file.
    fn bytes(&self) -> Vec<Vec<u8>> {
        let before = self.cuts.iter().chain(&self.intervals).map(Record::bytes);
        let runs = self.runs.iter().map(|run| run.record().bytes());
        let texts = self.texts.iter().map(|text| text.record().bytes());
        let after = self.floats.iter().chain(&self.samples).map(Record::bytes);
        let sampled = self.sampled_runs.iter().map(|run| run.record().bytes());
        let few = before.chain(runs).chain(texts).chain(after).chain(sampled);
        few.chain(self.wide.bytes()).collect()
    }
}

fn file(crates: &Path) -> PathBuf {
    crates.join("replay/stdin")
}

fn page_beside(file: &Path) -> PathBuf {
    file.with_file_name("RECORDED.md")
}

fn write(crates: &Path) -> Result<(), String> {
    let recorded = Recorded::new();
    let records = recorded.bytes();
    let put = |path: &Path, bytes: &[u8]| {
        std::fs::write(path, bytes).map_err(|e| format!("{}: {e}", path.display()))
    };
    let file = file(crates);
    put(&file, &records.concat())?;
    put(&page_beside(&file), page::make(&recorded).as_bytes())?;
    println!("recorded: {} records written", records.len());
    Ok(())
}

/// Compares the committed file and page with those made now.
fn check(crates: &Path) -> Result<(), String> {
    let recorded = Recorded::new();
    let file = file(crates);
    let compared = compare(&recorded.bytes(), &read(&file)?);
    let (all, differ) = (compared.records, compared.differing);
    println!(
        "harness: {all} records compared, {differ} differ{}",
        compared.first
    );
    if differ > 0 {
        return Err("the recorded file is not what the Rust answers".into());
    }
    if read(&page_beside(&file))? != page::make(&recorded).into_bytes() {
        return Err("the page is not what is recorded".into());
    }
    Ok(())
}

fn read(path: &Path) -> Result<Vec<u8>, String> {
    std::fs::read(path).map_err(|e| format!("{}: {e}", path.display()))
}

/// How many records there are, how many differ, and a text on the first that does.
struct Compared {
    records: usize,
    differing: usize,
    first: String,
}

/// Compares record by record, each at its place; bytes beyond the last are one that differs.
fn compare(made: &[Vec<u8>], committed: &[u8]) -> Compared {
    let mut compared = Compared {
        records: made.len(),
        differing: 0,
        first: String::new(),
    };
    let mut rest = committed;
    let mut look = |n: usize, ours: &[u8], theirs: &[u8]| {
        if ours == theirs {
            return;
        }
        if compared.differing == 0 {
            let (theirs, ours) = (hex(theirs), hex(ours));
            compared.first =
                format!("; the first, record {n}, is {theirs} where the Rust gives {ours}");
        }
        compared.differing += 1;
    };
    for (n, record) in made.iter().enumerate() {
        let (theirs, after) = rest.split_at(record.len().min(rest.len()));
        look(n, record, theirs);
        rest = after;
    }
    look(made.len(), &[], rest);
    compared
}

/// A record as upper-case hexadecimal digits, no more than the first two hundred bytes.
fn hex(record: &[u8]) -> String {
    let bytes = record.iter().take(200);
    let digits: String = bytes.map(|byte| format!("{byte:02X}")).collect();
    match record.len() {
        0 => "missing".into(),
        1..=200 => digits,
        _ => digits + "...",
    }
}
