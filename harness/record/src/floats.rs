//! Recorded answers of the Rust language itself on floats.
use crate::record::Record;
use floats::{Function, Input, FUNCTIONS};
use oracle::Words;

const SEED: u64 = 0x51DE_0F2A_F10A_7E55;
/// So many inputs stand in a record.
const INPUTS: usize = 1000;

pub fn records() -> Vec<Record> {
    let mut words = Words::new(SEED);
    FUNCTIONS
        .iter()
        .flat_map(|function| {
            let inputs = (function.inputs)(&mut words);
            let record = |some: &[Input]| record(function, some);
            inputs.chunks(INPUTS).map(record).collect::<Vec<_>>()
        })
        .collect()
}

/// An input takes 12 bytes, its answer 8.
fn record(function: &Function, inputs: &[Input]) -> Record {
    let (mut given, mut written) = (Vec::new(), Vec::new());
    for &input in inputs {
        given.extend_from_slice(&input.0.to_le_bytes());
        given.extend_from_slice(&u32::from(input.1).to_le_bytes());
        written.extend_from_slice(&(function.answer)(input).to_le_bytes());
    }
    Record::new(function.kind, given, written)
}
