//! Times the Rust and the port on the same calls, in the same process, and prints tables.
//!
//!   bench [OPERATIONS [REPETITIONS]]        a table for each kind of call
//!   bench --only WORD [OPERATIONS ..]       the tables alone with that word in their name, in capitals or not
//!   bench --growth [MOST [REPETITIONS]]     how the cost grows with capacity and calls
//!   bench --beside BEFORE NOW [--only WORD] [OPERATIONS ..]
//!                                           the tables of runs for two shared libraries of the port, timed in turn
//!
//! The answers of both are compared before anything is timed. The Rust's time is that of the timed calls
//! alone; the port's is that of a whole run less that of the run without them. The given Rust has no words from a key:
//! the port's are timed against plain loops.
#![deny(unsafe_code)]

mod adds;
mod arrivals;
mod beside;
mod growth;
mod plain;
mod readings;
mod reports;
mod times;
mod words;
mod workload;

use arrivals::Arrivals;
use std::process::ExitCode;
use workload::Workload;

const SEED: u64 = 12345;
const OPERATIONS: usize = 20_000;
const REPETITIONS: usize = 7;
const CAPACITY: usize = 256;
const SHARES: [f64; 3] = [1.0, 0.5, 0.0];
const CHANNELS: [u32; 5] = [1, 4, 8, 16, 32];
/// What is said below the times of runs.
const OF_RUNS: &str =
    "The port's time includes reading the run's bytes and writing the answers' bytes.";

/// Makes so many calls on a tree of a shape.
type Make = fn(&Shape, usize) -> Workload;

/// What a tree is made with.
#[derive(Clone, Copy)]
pub struct Shape {
    pub channels: u32,
    pub capacity: usize,
    pub share: f64,
}

fn main() -> ExitCode {
    let arguments: Vec<String> = std::env::args().skip(1).collect();
    let arguments: Vec<&str> = arguments.iter().map(String::as_str).collect();
    match ask(&arguments) {
        Ok(()) => ExitCode::SUCCESS,
        Err(why) => {
            eprintln!("bench: {why}");
            ExitCode::FAILURE
        }
    }
}

fn ask(arguments: &[&str]) -> Result<(), String> {
    let (beside, rest) = match arguments {
        ["--beside", before, now, rest @ ..] => (Some(beside::Both::open(before, now)?), rest),
        rest => (None, rest),
    };
    let (growth, only, rest) = match rest {
        ["--growth", rest @ ..] => (true, "", rest),
        ["--only", word, rest @ ..] => (false, *word, rest),
        rest => (false, "", rest),
    };
    let numbers: Result<Vec<usize>, _> = rest.iter().map(|n| n.parse()).collect();
    let usage =
        "usage: bench [--beside BEFORE NOW] [--growth | --only WORD] [OPERATIONS [REPETITIONS]]";
    let numbers = numbers.map_err(|_| usage)?;
    let repetitions = numbers.get(1).copied().unwrap_or(REPETITIONS);
    let first = numbers.first().copied();
    match (growth, beside) {
        (true, _) => growth::print(first, repetitions),
        (false, None) => kinds(only, first.unwrap_or(OPERATIONS), repetitions),
        (false, Some(both)) => both.print(only, first.unwrap_or(OPERATIONS), repetitions),
    }
    Ok(())
}

/// The kinds of calls that runs are timed for: a name, what there is of to a call, and the calls.
fn tables() -> [(&'static str, &'static str, Make); 5] {
    [
        ("Adds and deletes", "Words per add", adds::adds_and_deletes),
        ("Arrivals that fill the sample", "Words", |shape, calls| {
            arrivals::arrivals(Arrivals::Filling, shape, calls)
        }),
        ("Arrivals that evict", "Words", |shape, calls| {
            arrivals::arrivals(Arrivals::Evicting, shape, calls)
        }),
        ("Arrivals that are not accepted", "Words", |shape, calls| {
            arrivals::arrivals(Arrivals::NotAccepted, shape, calls)
        }),
        ("Reports", "Rows", reports::reports),
    ]
}

/// Whether a name has the word, in capitals or not.
fn named(name: &str, word: &str) -> bool {
    name.to_lowercase().contains(&word.to_lowercase())
}

/// Every share with every number of channels.
fn shapes() -> impl Iterator<Item = Shape> {
    let of_share = |share| {
        CHANNELS.map(|channels| Shape {
            channels,
            capacity: CAPACITY,
            share,
        })
    };
    SHARES.into_iter().flat_map(of_share)
}

/// A table for each kind of call whose name has the word.
fn kinds(only: &str, operations: usize, repetitions: usize) {
    if named(words::NAME, only) {
        words::print(repetitions);
    }
    if !tables().iter().any(|table| named(table.0, only)) {
        return;
    }
    for (name, to_a_call, make) in tables().into_iter().filter(|table| named(table.0, only)) {
        println!("{name}:\n");
        println!("| Share | Channels | {to_a_call} | Rust, ns | Port, ns | Port / Rust |");
        println!("|---|---|---|---|---|---|");
        for shape in shapes() {
            row(&shape, &make(&shape, operations), repetitions);
        }
        println!();
    }
    println!(
        "Capacity {CAPACITY}; {operations} calls a run, {CAPACITY} where they fill the sample."
    );
    println!("Times are for one call, the least of {repetitions} repetitions.");
    println!("{OF_RUNS}");
}

fn row(shape: &Shape, workload: &Workload, repetitions: usize) {
    let (rust, port) = times::least(workload, repetitions);
    println!(
        "| {} | {} | {:.1} | {rust:.0} | {port:.0} | {:.2} |",
        shape.share,
        shape.channels,
        workload.to_a_call,
        port / rust
    );
}
