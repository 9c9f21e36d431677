//! Shows that the generated runs notice small faults in the Rust's sampler and reports: `harness/faults.sh`.
//!
//!   faults write FILE           writes generated runs and their answers
//!   faults edit FROM TO         copies the crate of the Rust, with every fault in it, each asked for by FAULT
//!   faults read FILE            answers the runs of the file again and says how many differ
//!   faults noticed PROGRAM FILE asks another build of this program, one that has the faults, to read the file,
//!                               without a fault and with each; all is well if each is noticed
#![forbid(unsafe_code)]

mod edit;
mod given;
mod list;

use command::{Faults, Shows, Tries};
use list::FAULTS;
use std::path::Path;
use std::process::{Command, ExitCode};

fn main() -> ExitCode {
    command::main("faults", ask)
}

fn ask(arguments: &[&str]) -> Result<(), String> {
    match *arguments {
        ["write", file] => std::fs::write(file, given::draw()).map_err(|e| format!("{file}: {e}")),
        ["edit", from, to] => edit::copy(Path::new(from), Path::new(to)),
        ["read", file] => read(file),
        ["noticed", program, file] => noticed(program, file),
        _ => Err("usage: faults write FILE|edit FROM TO|read FILE|noticed PROGRAM FILE".into()),
    }
}

/// Three numbers on a line: runs, those that get other answers, and those that stop.
fn read(file: &str) -> Result<(), String> {
    let bytes = std::fs::read(file).map_err(|e| format!("{file}: {e}"))?;
    let answered = given::answer(&bytes);
    let given::Answered {
        runs,
        differing,
        stopped,
    } = answered;
    println!("{runs} {differing} {stopped}");
    Ok(())
}

fn noticed(program: &str, file: &str) -> Result<(), String> {
    let [runs, differing, stopped] = asked(program, file, 0)?;
    println!("no fault: {runs} runs, {differing} differ, {stopped} stop");
    if runs == 0 || differing + stopped > 0 {
        return Err("without a fault all answers have to be the same".into());
    }
    let mut faults = Faults::default();
    for (fault, number) in FAULTS.iter().zip(1..) {
        let [made, noticed, _] = asked(program, file, number)?;
        let tries = Tries { made, noticed };
        faults.tell(fault.name, "runs", tries, Shows::Sometimes);
    }
    faults.finish()
}

/// What the other build says with this fault.
fn asked(program: &str, file: &str, number: usize) -> Result<[usize; 3], String> {
    let mut command = Command::new(program);
    let output = command
        .args(["read", file])
        .env("FAULT", number.to_string())
        .output()
        .map_err(|e| format!("{program}: {e}"))?;
    let said = String::from_utf8_lossy(&output.stdout);
    let numbers: Vec<usize> = said.split_whitespace().flat_map(str::parse).collect();
    let wrong = |_| format!("{program} with the fault {number} says: {said}");
    numbers.try_into().map_err(wrong)
}
