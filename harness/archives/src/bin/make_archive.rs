//! Writes an archive of arrivals to be timed.
//!
//!   make_archive [--keyed] CAPACITY ARRIVALS [SEED]
//!
//! Two channels, a whole cache, a tree that is filled by the first arrivals and goes on changing. Puts come first, then
//! the arrivals, each with as many words as the capacity; or, if keyed, with a key, which is one for all of them, and the
//! number of its first word.
#![forbid(unsafe_code)]

use archives::generate::{big, pool, Big};
use archives::Archive;
use oracle::Words;
use std::io::{BufWriter, Write};
use std::process::ExitCode;
use texts::OpRow;

fn main() -> ExitCode {
    let mut arguments = std::env::args().skip(1).peekable();
    let keyed = arguments.next_if_eq("--keyed").is_some();
    let numbers: Vec<u64> = arguments.map_while(|number| number.parse().ok()).collect();
    let (capacity, arrivals, seed) = match numbers[..] {
        [capacity, arrivals] => (capacity as u32, arrivals as usize, 1),
        [capacity, arrivals, seed] => (capacity as u32, arrivals as usize, seed),
        _ => {
            eprintln!("usage: make_archive [--keyed] CAPACITY ARRIVALS [SEED]");
            return ExitCode::FAILURE;
        }
    };
    let wanted = Big {
        rows: arrivals + pool(capacity) as usize,
        dimensions: 2,
        capacity,
        cache16: 16,
        others: 0,
        falls: 0.02,
        keyed: usize::from(keyed),
    };
    match write(big(&wanted, &mut Words::new(seed))) {
        Ok(()) => ExitCode::SUCCESS,
        Err(why) => {
            eprintln!("make_archive: {why}");
            ExitCode::FAILURE
        }
    }
}

/// Row by row, so that the text is never held as a whole.
fn write(archive: Archive) -> std::io::Result<()> {
    let mut output = BufWriter::new(std::io::stdout().lock());
    let Archive { making, rows } = archive;
    let head = Archive {
        making,
        rows: vec![],
    };
    output.write_all(&head.bytes())?;
    for row in rows {
        writeln!(output, "{}", row.line())?;
    }
    output.flush()
}
