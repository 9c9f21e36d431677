//! The Rust's own masses in answers, where they are other than the count: a leaf of two copies counted once.
use oracle::{rust_mass, Tree, Words};
use runs::{decode, Answer, Call, Driver, ROW_NUMBERS};

/// Which column has it.
#[derive(Clone, Copy, Debug)]
pub enum Column {
    /// That of a branch query.
    Branch,
    /// That of a report's row.
    Row,
}

impl Column {
    /// For each mass in the answer to a call its place among the numbers, and the Rust's own.
    fn masses(self, call: &Call, answer: &Answer, tree: &Tree) -> Vec<(usize, u32)> {
        let own = |id: u32| rust_mass(tree, id as usize) as u32;
        match (self, call) {
            (Column::Branch, Call::Branch { id }) => vec![(5, own(*id))],
            (Column::Row, Call::Report { .. }) => {
                let row = |n: usize| 2 + ROW_NUMBERS * n;
                let rows = (0..answer[1] as usize).map(row);
                rows.map(|at| (at + 2, own(answer[at]))).collect()
            }
            _ => vec![],
        }
    }
}

/// The place of a mass in the answer bytes of a run, and the Rust's own mass there, which is another.
pub fn place(column: Column, run: &[u8], words: &mut Words) -> Option<(usize, u32)> {
    let run = decode(run)?;
    let mut driver = Driver::make(&run.making).ok()?;
    let mut others = vec![];
    for span in run.spans() {
        let Some(call) = span.call else { continue };
        let answer = driver.call(call);
        if answer[0] > 0 {
            continue;
        }
        let masses = column.masses(call, &answer, driver.tree()).into_iter();
        let other = masses.filter(|(number, own)| answer[*number] != *own);
        others.extend(other.map(|(number, own)| (span.answer.start + 4 * number, own)));
    }
    match others.is_empty() {
        true => None,
        false => Some(words.one_of(&others)),
    }
}
