//! A program that is compared text by text, and what the one that compares it can be asked for.
use crate::{difference, number, Faults, Pieces, Program, SEED};
use std::io::{Read, Write};
use std::ops::Range;

pub struct Compared {
    pub program: &'static str,
    /// What a text is called, and what more of them are; the comparing program is called so too.
    pub text: &'static str,
    pub texts: &'static str,
    /// What the comparing program can be asked for.
    pub usage: &'static str,
    /// What is said where anything differs.
    pub not_the_rust: &'static str,
    /// Text n of a seed.
    pub nth: fn(u64, usize) -> Vec<u8>,
    /// The number of the first that is drawn; those before are almost all out of form.
    pub first_drawn: usize,
    /// What must be printed for a text.
    pub printed: fn(&[u8]) -> Vec<u8>,
    /// Each fault is tried in so many texts that it can touch.
    pub tries: usize,
}

/// Whoever compares.
pub trait Judge: Default {
    /// Compares text n of a seed.
    fn look(&mut self, n: usize, seed: u64, program: &Program) -> Result<(), String>;

    /// Says what was compared; an error if anything differs or less was compared than has to be.
    fn finish(&self, asked: usize) -> Result<(), String>;
}

impl Compared {
    pub fn find(&self) -> Result<Program, String> {
        Program::find(self.program)
    }

    /// Does what is asked for.
    pub fn ask<J: Judge>(&self, arguments: &[&str]) -> Result<(), String> {
        let writes = |option: &str| option.strip_prefix("--") == Some(self.text);
        match *arguments {
            ["--fault"] => self.fault(),
            ["--replay"] => self.replay(),
            ["--only", n] => self.compare::<J>(one(n)?, SEED),
            ["--only", n, seed] => self.compare::<J>(one(n)?, number(seed)?),
            [option, n] if writes(option) => self.write(n, SEED),
            [option, n, seed] if writes(option) => self.write(n, number(seed)?),
            [count] => self.compare::<J>(0..number(count)? as usize, SEED),
            [count, seed] => self.compare::<J>(0..number(count)? as usize, number(seed)?),
            _ => Err(format!("usage: {} {} [SEED]", self.texts, self.usage)),
        }
    }

    fn fault(&self) -> Result<(), String> {
        let mut faults = Faults::default();
        self.try_faults(&self.find()?, &mut faults)?;
        faults.finish()
    }

    fn compare<J: Judge>(&self, numbers: Range<usize>, seed: u64) -> Result<(), String> {
        let program = self.find()?;
        let mut judge = J::default();
        let asked = numbers.len();
        for n in numbers {
            judge.look(n, seed, &program)?;
        }
        judge.finish(asked)
    }

    fn write(&self, n: &str, seed: u64) -> Result<(), String> {
        write(&(self.nth)(seed, number(n)? as usize))
    }

    /// A text from standard input, and both outputs.
    fn replay(&self) -> Result<(), String> {
        let text = given()?;
        let expected = (self.printed)(&text);
        let got = self.find()?.print(&text, &Pieces::Equal(1))?;
        let name = format!("the {}", self.text);
        println!("{}", difference(&name, &text, &expected, &got));
        match got.differs(&expected) {
            false => Ok(()),
            true => Err(self.not_the_rust.into()),
        }
    }
}

fn one(text: &str) -> Result<Range<usize>, String> {
    let n = number(text)? as usize;
    Ok(n..n + 1)
}

/// A text from standard input.
pub fn given() -> Result<Vec<u8>, String> {
    let mut text = Vec::new();
    let read = std::io::stdin().read_to_end(&mut text);
    read.map_err(|e| e.to_string())?;
    Ok(text)
}

pub fn write(bytes: &[u8]) -> Result<(), String> {
    let written = std::io::stdout().write_all(bytes);
    written.map_err(|e| e.to_string())
}
