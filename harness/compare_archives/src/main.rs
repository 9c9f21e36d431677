//! Holds the program `regrow` against the Rust, archive by archive, and the port's byte run too.
//!
//!   archives COUNT [SEED]         compares so many archives
//!   archives --only N [SEED]      compares the archive N of a seed
//!   archives --archive N [SEED]   writes the archive N of a seed and nothing else
//!   archives --fault              changes outputs and archives on purpose; all is well if that is noticed
//!   archives --replay             reads an archive and shows what is expected and what is printed
//!   archives --expect             reads an archive and writes what is expected and nothing else
//!
//! SEED is a whole number; the same one gives the same archives. REGROW names the program; if it is unset, that is
//! crates/regrow/out/regrow below the project's root. The last line says how many archives were compared, how many of them
//! are in form, and how many differ; the exit status is 0 only if none does and no fewer were compared than
//! asked for. An archive differs where the program prints something else, exits with a status other than
//! 0, or is ended by a signal; or where `sicklephlox_run`, asked for the same calls, sample and tree, says
//! something else.
#![forbid(unsafe_code)]

mod fault;
mod judge;
mod of_port;

use archives::generate::{nth, FIRST_DRAWN};
use archives::printed;
use command::{given, write, Compared};
use judge::Judge;
use std::process::ExitCode;

const REGROW: Compared = Compared {
    program: "regrow",
    text: "archive",
    texts: "archives",
    usage: "COUNT|--only N|--archive N|--fault|--replay|--expect",
    not_the_rust: "what the program or the byte run says is not what the Rust and document 01 say",
    nth: |seed, n| nth(seed, n).bytes,
    first_drawn: FIRST_DRAWN,
    printed,
    tries: 30,
};

fn main() -> ExitCode {
    command::main("archives", ask)
}

fn ask(arguments: &[&str]) -> Result<(), String> {
    match *arguments {
        ["--fault"] => fault::run(),
        ["--expect"] => write(&printed(&given()?)),
        _ => REGROW.ask::<Judge>(arguments),
    }
}
