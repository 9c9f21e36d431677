//! The readings of a benchmark: one for each index, of the full range.
use crate::workload::Bytes;
use oracle::{Table, Words};
use runs::{Call, Making};

const EDGE: i32 = 1 << 20;

pub fn reading(channels: u32, words: &mut Words) -> Vec<f32> {
    let coordinate = |_| words.between(-EDGE, EDGE) as f32;
    (0..channels).map(coordinate).collect()
}

pub fn bits(reading: &[f32]) -> Vec<u32> {
    reading.iter().map(|x| x.to_bits()).collect()
}

/// A making and puts at all indices.
pub fn written(making: &Making, words: &mut Words) -> (Table, Bytes) {
    let mut table = Table::new();
    let mut bytes = Bytes::new(making);
    for index in 0..Table::SIZE {
        let reading = reading(making.channels, words);
        table.put(index, &reading);
        let put = Call::Put {
            index: index as u32,
            coordinates: bits(&reading),
        };
        bytes.push(&put, &[0]);
    }
    (table, bytes)
}
