//! Holds the port's leaves by themselves against the Rust language and the unchanged Rust's boxes.
//!
//!   leaves VALUES [SEED]   compares each leaf on so many values, at least 1,000,000
//!   leaves --fault         puts wrong leaves in their place; all is well if each is noticed
//!
//! SEED is a whole number; the same one gives the same values. A line for each leaf says how many values
//! were compared and how many differ; the exit status is 0 only if none does and no leaf was compared on
//! fewer than 1,000,000. All bits count; every NaN is the same.
#![deny(unsafe_code)]

mod boxes;
mod drawn_boxes;
mod leaf;
mod numbers;
mod port;

use command::{number, Faults, SEED};
use leaf::Tally;
use std::process::ExitCode;

/// Wrong leaves are tried on so many values.
const FAULT_VALUES: usize = 20_000;

fn main() -> ExitCode {
    command::main("leaves", ask)
}

fn ask(arguments: &[&str]) -> Result<(), String> {
    match *arguments {
        ["--fault"] => fault(),
        [values] => compare(number(values)? as usize, SEED),
        [values, seed] => compare(number(values)? as usize, number(seed)?),
        _ => Err("usage: leaves VALUES|--fault [SEED]".into()),
    }
}

fn compare(values: usize, seed: u64) -> Result<(), String> {
    let mut tally = Tally::default();
    for leaf in numbers::leaves() {
        tally.look(&leaf, values, seed);
    }
    for leaf in boxes::leaves() {
        tally.look(&leaf, values, seed);
    }
    tally.finish()
}

/// An error if a wrong leaf goes unnoticed.
fn fault() -> Result<(), String> {
    let mut faults = Faults::default();
    for leaf in numbers::leaves() {
        leaf.tell_faults(&mut faults, FAULT_VALUES, SEED);
    }
    for leaf in boxes::leaves() {
        leaf.tell_faults(&mut faults, FAULT_VALUES, SEED);
    }
    faults.finish()
}
