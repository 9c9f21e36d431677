//! Faults made on purpose in what a program is handed, in what it prints and in what is expected of it, to
//! show that its comparison notices them.
use crate::{lessen, Column, Compared, Faults, Pieces, Printed, Program, Shows, Tries, SEED};
use oracle::Words;

/// Texts to look through for those that a fault can touch.
const TEXTS: usize = 200;

/// What goes wrong.
#[derive(Clone, Copy, Debug)]
enum Fault {
    /// One bit of what is expected.
    ExpectedBit,
    /// One bit of what is printed.
    PrintedBit,
    ByteMissing,
    ByteMore,
    /// A printed mass is one less.
    LessMass(Column),
    /// All is printed, but then a signal ends the program.
    Signal,
    /// All is printed, but the program exits with a status other than 0.
    Status,
    /// The program is handed the text without its last row. A row need not show.
    Row,
}

const SPOILED: [Fault; 8] = [
    Fault::ExpectedBit,
    Fault::PrintedBit,
    Fault::ByteMissing,
    Fault::ByteMore,
    Fault::LessMass(Column::Leaf),
    Fault::LessMass(Column::Branch),
    Fault::Signal,
    Fault::Status,
];

impl Compared {
    /// Tries the faults that any program can have.
    pub fn try_faults(&self, program: &Program, faults: &mut Faults) -> Result<(), String> {
        for fault in SPOILED {
            let tries = self.try_spoiled(program, |expected, got, words| {
                spoil(fault, expected, got, words)
            })?;
            faults.tell(fault, self.texts, tries, Shows::Always);
        }
        let tries = self.try_handed(program, without_last_row)?;
        faults.tell(Fault::Row, self.texts, tries, Shows::Sometimes);
        Ok(())
    }

    /// Tries a fault in drawn texts, as `Tries::of` says. Each has its number and words of its own.
    pub fn try_drawn(
        &self,
        mut noticed: impl FnMut(usize, Vec<u8>, &mut Words) -> Result<Option<bool>, String>,
    ) -> Result<Tries, String> {
        Tries::of(TEXTS, self.tries, |n| {
            let text = (self.nth)(SEED, self.first_drawn + n);
            noticed(n, text, &mut Words::new(n as u64))
        })
    }

    /// Hands the program other texts than those that it is held to.
    pub fn try_handed(
        &self,
        program: &Program,
        other: fn(Vec<u8>, &mut Words) -> Vec<u8>,
    ) -> Result<Tries, String> {
        self.try_drawn(|_, text, words| {
            let expected = (self.printed)(&text);
            let got = program.print(&other(text, words), &Pieces::Equal(1))?;
            Ok(Some(got.differs(&expected)))
        })
    }

    /// Spoils what is expected or what is printed; `spoil` says whether it could. Texts whose output differs without a
    /// fault are for the comparison itself and are left out.
    pub fn try_spoiled(
        &self,
        program: &Program,
        spoil: impl Fn(&mut [u8], &mut Printed, &mut Words) -> bool,
    ) -> Result<Tries, String> {
        self.try_drawn(|_, text, words| {
            let mut expected = (self.printed)(&text);
            let mut got = program.print(&text, &Pieces::Equal(1))?;
            if got.differs(&expected) {
                return Ok(None);
            }
            let spoiled = spoil(&mut expected, &mut got, words);
            Ok(spoiled.then(|| got.differs(&expected)))
        })
    }
}

/// Makes the fault; false where it can't be made.
fn spoil(fault: Fault, expected: &mut [u8], got: &mut Printed, words: &mut Words) -> bool {
    let place = words.below(expected.len());
    let bit = 1 << words.below(8);
    match fault {
        Fault::ExpectedBit => expected[place] ^= bit,
        Fault::PrintedBit => got.bytes[place] ^= bit,
        Fault::ByteMissing => drop(got.bytes.pop()),
        Fault::ByteMore => got.bytes.push(b'\n'),
        Fault::Signal => got.status = None,
        Fault::Status => got.status = Some(1),
        Fault::LessMass(column) => return lessen(column, &mut got.bytes, words),
        Fault::Row => return false,
    }
    true
}

/// The text up to the line feed before its last row.
fn without_last_row(mut text: Vec<u8>, _: &mut Words) -> Vec<u8> {
    let before = text.strip_suffix(b"\n").unwrap_or(&text);
    let end = before.iter().rposition(|byte| *byte == b'\n');
    text.truncate(end.map_or(0, |place| place + 1));
    text
}
