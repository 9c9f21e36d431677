//! Calls whose time is asked for, as bytes for the port and as a function for the Rust.
use runs::{bytes_of, Call, Making};

/// A run's bytes and the answer bytes they get, written call by call.
#[derive(Clone)]
pub struct Bytes {
    pub run: Vec<u8>,
    pub answers: Vec<u8>,
}

impl Bytes {
    pub fn new(making: &Making) -> Self {
        let mut run = Vec::new();
        making.write(&mut run);
        Bytes {
            run,
            answers: vec![0; 4],
        }
    }

    /// One more call, which must not be refused.
    pub fn push(&mut self, call: &Call, answer: &[u32]) {
        assert_eq!(answer[0], 0, "every call is accepted");
        call.write(&mut self.run);
        self.answers.extend(bytes_of(&[answer.to_vec()]));
    }
}

pub struct Workload {
    /// Making, and the calls before those that are timed.
    pub before: Bytes,
    /// The same and the timed calls.
    pub whole: Bytes,
    /// How many calls are timed.
    pub calls: usize,
    /// How many words, or rows, there are to a timed call.
    pub to_a_call: f64,
    /// The seconds of the Rust for the timed calls, once through.
    pub rust: Box<dyn Fn() -> f64>,
}
