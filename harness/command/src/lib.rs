//! What the comparing programs share: how they are asked, how much they have to compare, what they
//! say of faults made on purpose, and how a program is compared text by text.
#![forbid(unsafe_code)]

mod compared;
mod difference;
mod masses;
mod program;
mod spoiled;
mod tally;

pub use compared::{given, write, Compared, Judge};
pub use difference::difference;
pub use masses::{lessen, Column};
pub use program::{Pieces, Printed, Program};
pub use tally::Tally;

use std::fmt::Debug;
use std::process::ExitCode;

/// Which columns are compared with which; every comparison of trees says so.
pub const HELD_TO: &str =
    "held to: masses to a count over the leaves of the Rust's tree, all other columns to the Rust";

/// The seed where none is given.
pub const SEED: u64 = 20;

/// Hands the arguments on; an error is said in the program's name and ends it with a failure.
pub fn main(name: &str, ask: fn(&[&str]) -> Result<(), String>) -> ExitCode {
    let arguments: Vec<String> = std::env::args().skip(1).collect();
    let arguments: Vec<&str> = arguments.iter().map(String::as_str).collect();
    match ask(&arguments) {
        Ok(()) => ExitCode::SUCCESS,
        Err(why) => {
            eprintln!("{name}: {why}");
            ExitCode::FAILURE
        }
    }
}

pub fn number(text: &str) -> Result<u64, String> {
    let number = text.parse();
    number.map_err(|_| format!("{text} is no whole number"))
}

/// An error if fewer inputs were compared than had to be: an empty or a stuck loop finds no difference
/// either. One is always the least.
pub fn reached(compared: usize, least: usize, inputs: &str) -> Result<(), String> {
    let least = least.max(1);
    match compared >= least {
        true => Ok(()),
        false => Err(format!(
            "{compared} {inputs} compared, at least {least} have to be"
        )),
    }
}

/// An error if the branch of the Rust that is seeded with 17 was reached, or if anything differs.
pub fn all_equal(differing: usize, otherwise: &str) -> Result<(), String> {
    if oracle::feed::seed17_draws() > 0 {
        return Err("the branch seeded with 17 was reached".into());
    }
    match differing {
        0 => Ok(()),
        _ => Err(otherwise.into()),
    }
}

/// In how many inputs a fault was made, and in how many of those the comparison saw it.
#[derive(Clone, Copy, Default)]
pub struct Tries {
    pub made: usize,
    pub noticed: usize,
}

impl Tries {
    /// Tries a fault in one of so many inputs after another, until it was made in enough of them. `noticed` says of
    /// an input, by its number, whether the fault was noticed in it; nothing where it can't be made.
    pub fn of(
        inputs: usize,
        enough: usize,
        noticed: impl FnMut(usize) -> Result<Option<bool>, String>,
    ) -> Result<Self, String> {
        let mut tries = Tries::default();
        for noticed in (0..inputs).map(noticed) {
            if let Some(noticed) = noticed? {
                tries.made += 1;
                tries.noticed += usize::from(noticed);
            }
            if tries.made == enough {
                break;
            }
        }
        Ok(tries)
    }
}

/// How often a fault that was made has to be noticed.
#[derive(Clone, Copy)]
pub enum Shows {
    Always,
    /// It may change nothing; but once it has to be seen.
    Sometimes,
}

/// The faults that went unnoticed.
#[derive(Default)]
pub struct Faults {
    unnoticed: Vec<String>,
}

impl Faults {
    pub fn tell(&mut self, fault: impl Debug, inputs: &str, tries: Tries, shows: Shows) {
        let Tries { made, noticed } = tries;
        println!("fault {fault:?}: made in {made} {inputs}, noticed in {noticed}");
        let enough = match shows {
            Shows::Sometimes => noticed > 0,
            Shows::Always => noticed == made && made > 0,
        };
        if !enough {
            self.unnoticed.push(format!("{fault:?}"));
        }
    }

    pub fn finish(self) -> Result<(), String> {
        match self.unnoticed.is_empty() {
            true => Ok(()),
            false => Err(format!("not noticed: {}", self.unnoticed.join(", "))),
        }
    }
}
