//! Holds the port's words of a key against a second implementation of RFC 8439's ChaCha20 block, `chacha20`.
//!
//!   words WORDS [SEED]   compares so many words, at least 1,000,000
//!   words --fault        puts wrong sources in the port's place; all is well if each is noticed
//!
//! SEED is a whole number; the same one gives the same keys, starts and lengths. The RFC's vectors and its quarter-round
//! example come first, and what the port is held to must give them. The last line says how many words were compared and
//! how many stretches differ; the exit status is 0 only if none does and no fewer than 1,000,000 words were compared.
#![forbid(unsafe_code)]

mod asked;
mod compared;
mod fault;
mod judge;
mod vectors;
mod wrong;

use command::{number, SEED};
use judge::Judge;
use std::process::ExitCode;

fn main() -> ExitCode {
    command::main("words", ask)
}

fn ask(arguments: &[&str]) -> Result<(), String> {
    match *arguments {
        ["--fault"] => fault::run(SEED),
        [words] => compare(number(words)? as usize, SEED),
        [words, seed] => compare(number(words)? as usize, number(seed)?),
        _ => Err("usage: words WORDS|--fault [SEED]".into()),
    }
}

fn compare(words: usize, seed: u64) -> Result<(), String> {
    vectors::hold()?;
    let mut judge = Judge::default();
    let mut stretches = asked::stretches(seed);
    while judge.words() < words {
        judge.look(&stretches.next().expect("there is always another"));
    }
    judge.finish()
}
