//! Holds the port against the Rust, byte run by byte run.
//!
//!   compare 500 [SEED]        compares 500 runs
//!   compare 30s [SEED]        compares runs for 30 seconds, at least so many for each of them as stand below
//!   compare --only N [SEED]   compares the run N of a seed
//!   compare --fault           changes answers, buffers and words on purpose; all is well if that
//!                             is noticed
//!   compare --replay          reads a run in hexadecimal digits and shows each call's two answers
//!
//! SEED is a whole number; the same one gives the same runs. The worked runs of docs/LAYOUT.md, and chains of
//! 256 leaves on as little stack as that page asks for, are compared before them. The last line says how many were compared and how many differ; the exit
//! status is 0 only if none does and no fewer were compared than asked for.
#![forbid(unsafe_code)]

mod chains;
mod difference;
mod fault;
mod inputs;
mod judge;
mod replay;
mod tally;

use command::{number, SEED};
use inputs::Source;
use judge::{Judge, Plain};
use std::process::ExitCode;
use std::time::{Duration, Instant};
use tally::Least;

/// A comparison for a time has to get through so much for each of its seconds: in 30 seconds 810,000 calls
/// of sampled runs, 81,000 report rows, and 3,000 rows whose computed sum is not the whole-number sum, 120 of them at 9 channels.
const LEAST_A_SECOND: Least = Least {
    runs: 10,
    sampled_calls: 27_000,
    report_rows: 2_700,
    rounded: 100,
    rounded_at_nine: 4,
};

/// When a comparison ends, or the one run it is of.
enum Until {
    Only(usize),
    Runs(usize),
    Time(Duration),
}

impl Until {
    /// How much has to be compared.
    fn least(&self) -> Least {
        let runs = |runs| Least {
            runs,
            ..Least::default()
        };
        match self {
            Until::Only(_) => runs(1),
            Until::Runs(number) => runs(*number),
            Until::Time(time) => {
                let seconds = (time.as_secs() as usize).max(1);
                Least {
                    runs: LEAST_A_SECOND.runs * seconds,
                    sampled_calls: LEAST_A_SECOND.sampled_calls * seconds,
                    report_rows: LEAST_A_SECOND.report_rows * seconds,
                    rounded: LEAST_A_SECOND.rounded * seconds,
                    rounded_at_nine: LEAST_A_SECOND.rounded_at_nine * seconds,
                }
            }
        }
    }
}

fn main() -> ExitCode {
    command::main("compare", ask)
}

fn ask(arguments: &[&str]) -> Result<(), String> {
    match *arguments {
        ["--fault"] => fault::run(SEED),
        ["--replay"] => replay::run(),
        ["--only", n] => compare(numbered(n)?, SEED),
        ["--only", n, seed] => compare(numbered(n)?, number(seed)?),
        [until] => compare(until_of(until)?, SEED),
        [until, seed] => compare(until_of(until)?, number(seed)?),
        _ => Err("usage: compare RUNS|SECONDSs|--only N|--fault|--replay [SEED]".into()),
    }
}

fn numbered(text: &str) -> Result<Until, String> {
    Ok(Until::Only(number(text)? as usize))
}

/// A number of runs, or of seconds with an s behind it.
fn until_of(text: &str) -> Result<Until, String> {
    Ok(match text.strip_suffix('s') {
        Some(seconds) => Until::Time(Duration::from_secs(number(seconds)?)),
        None => match number(text)? as usize {
            0 => return Err("no run is asked for".into()),
            runs => Until::Runs(runs),
        },
    })
}

fn compare(until: Until, seed: u64) -> Result<(), String> {
    let start = Instant::now();
    let source = Source::new(seed);
    let mut judge = Judge::new(Plain::default());
    judge.look_at_page()?;
    judge.look_at_chains()?;
    let mut n = match until {
        Until::Only(n) => n,
        _ => 0,
    };
    loop {
        judge.look(&source.draw(n));
        n += 1;
        let over = match until {
            Until::Only(_) => true,
            Until::Runs(runs) => n >= runs,
            Until::Time(time) => start.elapsed() >= time,
        };
        if over {
            return judge.finish(&until.least());
        }
    }
}
