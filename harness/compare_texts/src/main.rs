//! Holds the program `treelist` against the Rust, text by text.
//!
//!   texts COUNT [SEED]      compares so many texts
//!   texts --only N [SEED]   compares the text N of a seed
//!   texts --text N [SEED]   writes the text N of a seed and nothing else
//!   texts --fault           changes outputs and texts on purpose; all is well if that is noticed
//!   texts --replay          reads a text and shows what is expected and what is printed
//!
//! SEED is a whole number; the same one gives the same texts. TREELIST names the program; if it is
//! unset, that is crates/treelist/out/treelist below the project's root. The last line says how many texts
//! were compared, how many of them are in form, and how many differ; the exit status is 0 only if
//! none does and no fewer were compared than asked for. A text differs where the program prints
//! something else, exits with a status other than 0, or is ended by a signal.
#![forbid(unsafe_code)]

mod judge;

use command::Compared;
use judge::Judge;
use std::process::ExitCode;
use texts::generate::{nth, FIRST_DRAWN};
use texts::printed;

const TREELIST: Compared = Compared {
    program: "treelist",
    text: "text",
    texts: "texts",
    usage: "COUNT|--only N|--text N|--fault|--replay",
    not_the_rust: "what the program prints is not what the Rust and document 01 say",
    nth: |seed, n| nth(seed, n).bytes,
    first_drawn: FIRST_DRAWN,
    printed,
    tries: 40,
};

fn main() -> ExitCode {
    command::main("texts", |arguments| TREELIST.ask::<Judge>(arguments))
}
