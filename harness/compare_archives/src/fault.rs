//! Faults made on purpose, to show that the comparison notices them: those of any program, and four more.
use crate::{of_port, REGROW};
use archives::form::read;
use archives::{outcome, printed, Row};
use command::{lessen, Column, Faults, Pieces, Program, Shows};
use oracle::Words;

/// What goes wrong.
#[derive(Clone, Copy, Debug)]
enum Fault {
    /// The program is handed the archive with another hexadecimal digit somewhere. One that doesn't decide need not show.
    Digit,
    /// The program is handed the archive with keyed rows that begin one word later. Where no word decides it need not show.
    NextWord,
    /// One bit of what the port's byte run answers.
    PortBit,
    /// The mass of a report's row is one less.
    LessRowMass,
}

/// Tries every fault; an error if one goes unnoticed.
pub fn run() -> Result<(), String> {
    let program = REGROW.find()?;
    let mut faults = Faults::default();
    REGROW.try_faults(&program, &mut faults)?;
    let tries = REGROW.try_handed(&program, with_other_digit)?;
    faults.tell(Fault::Digit, REGROW.texts, tries, Shows::Sometimes);
    let tries = REGROW.try_drawn(|_, archive, _| next_word(archive, &program))?;
    faults.tell(Fault::NextWord, REGROW.texts, tries, Shows::Sometimes);
    let tries = REGROW.try_drawn(port_bit)?;
    faults.tell(Fault::PortBit, REGROW.texts, tries, Shows::Always);
    let tries = REGROW.try_spoiled(&program, |_, got, words| {
        lessen(Column::Row, &mut got.bytes, words)
    })?;
    faults.tell(Fault::LessRowMass, REGROW.texts, tries, Shows::Always);
    faults.finish()
}

/// Hands the program an archive with other words; whether that is noticed, where the archive has keyed rows.
fn next_word(archive: Vec<u8>, program: &Program) -> Result<Option<bool>, String> {
    let Some(other) = with_next_words(&archive) else {
        return Ok(None);
    };
    let expected = printed(&archive);
    // what differs without a fault is for the comparison itself
    if program
        .print(&archive, &Pieces::Equal(1))?
        .differs(&expected)
    {
        return Ok(None);
    }
    let got = program.print(&other, &Pieces::Equal(1))?;
    Ok(Some(got.differs(&expected)))
}

/// The archive with all its keyed rows one word further on; none where it has none, or is out of form.
fn with_next_words(archive: &[u8]) -> Option<Vec<u8>> {
    let mut archive = read(archive)?.whole().ok()?;
    let mut any = false;
    for row in &mut archive.rows {
        if let Row::Keyed { first, .. } = row {
            *first = first.saturating_add(1);
            any = true;
        }
    }
    any.then(|| archive.bytes())
}

/// Spoils the port's answer bytes; whether that is noticed, where an archive has any.
fn port_bit(n: usize, archive: Vec<u8>, words: &mut Words) -> Result<Option<bool>, String> {
    let outcome = outcome(&archive);
    let Some(asked) = of_port::asked(&outcome) else {
        return Ok(None);
    };
    let mut answers = of_port::answers(&asked, n)?;
    let place = words.below(answers.len());
    answers[place] ^= 1 << words.below(8);
    let held = of_port::hold(&asked, &answers, &outcome.bytes());
    Ok(Some(held.is_err()))
}

/// The archive with one digit from 8 to F for another, the highest ones of words among them.
fn with_other_digit(mut archive: Vec<u8>, words: &mut Words) -> Vec<u8> {
    let starts = archive.windows(2).enumerate();
    let starts: Vec<usize> = starts
        .filter(|(_, two)| two[0] == b' ' && b"89ABCDEF".contains(&two[1]))
        .map(|(place, _)| place + 1)
        .collect();
    if !starts.is_empty() {
        archive[words.one_of(&starts)] = b'0';
    }
    archive
}
