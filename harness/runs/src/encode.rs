//! Writes a run to bytes, call by call.
use crate::layout::{Call, Making, Run};

impl Run {
    /// The run's bytes.
    pub fn encode(&self) -> Vec<u8> {
        let mut bytes = Vec::with_capacity(self.run_bytes());
        self.making.write(&mut bytes);
        for call in &self.calls {
            call.write(&mut bytes);
        }
        bytes
    }
}

impl Making {
    /// Its bytes, after these.
    pub fn write(&self, bytes: &mut Vec<u8>) {
        number(bytes, self.kind());
        number(bytes, self.channels);
        number(bytes, self.capacity);
        word(bytes, self.share);
        if let Some(initial) = self.initial {
            word(bytes, initial);
        }
    }
}

impl Call {
    /// Its bytes, after these.
    pub fn write(&self, bytes: &mut Vec<u8>) {
        number(bytes, self.kind());
        match self {
            Call::Put {
                index: first,
                coordinates,
            }
            | Call::Report {
                rows: first,
                coordinates,
            } => {
                number(bytes, *first);
                many(bytes, coordinates, number);
            }
            Call::Add { index, words } => {
                number(bytes, *index);
                many(bytes, words, word);
            }
            Call::Arrival {
                index,
                weight,
                start,
                words,
            } => {
                number(bytes, *index);
                number(bytes, *weight);
                word(bytes, *start);
                many(bytes, words, word);
            }
            Call::Delete { index: only }
            | Call::Copies { id: only }
            | Call::Branch { id: only }
            | Call::Box { id: only } => number(bytes, *only),
            Call::Sample => {}
        }
    }
}

/// A count, then the items.
fn many<T: Copy>(bytes: &mut Vec<u8>, items: &[T], item: fn(&mut Vec<u8>, T)) {
    number(bytes, u32::try_from(items.len()).expect("fewer than 2^32"));
    for one in items {
        item(bytes, *one);
    }
}

fn number(bytes: &mut Vec<u8>, number: u32) {
    bytes.extend_from_slice(&number.to_le_bytes());
}

fn word(bytes: &mut Vec<u8>, word: u64) {
    bytes.extend_from_slice(&word.to_le_bytes());
}
