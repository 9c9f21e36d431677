//! The port behind its two C functions, safe to call. The buffers are lent out of the middle of
//! larger ones, and after the call all that must not have changed is looked at.
#![deny(unsafe_code)]

mod guarded;
mod library;
mod words;

pub use library::Library;
pub use words::{words_of_port, Filled, Source, WordsLent};

use guarded::Guarded;

/// What came of a call.
#[derive(Clone, Debug, PartialEq)]
pub struct Called {
    pub returned: usize,
    /// The bytes written: as many as returned, if the number is no refusal.
    pub written: Vec<u8>,
    /// What changed and should not have.
    pub harm: Option<String>,
}

/// A run and answer bytes, lent to the port.
pub struct Lending {
    run: Guarded<u8>,
    answers: Guarded<u8>,
    returned: usize,
}

impl Lending {
    /// `turn` shifts both buffers and changes the bytes around them from call to call.
    pub fn new(run: &[u8], answer_bytes: usize, turn: usize) -> Self {
        Lending {
            run: Guarded::holding(run, turn),
            answers: Guarded::empty(answer_bytes, turn / 8),
            returned: 0,
        }
    }

    /// Hands both to the port.
    pub fn call(&mut self) {
        self.returned = Library::linked().run(self.run.lent(), self.answers.lent_mut());
    }

    /// What came of the call.
    pub fn called(&self) -> Called {
        let count = match self.returned % 4 {
            0 => self.returned,
            _ => 0,
        };
        let lent = self.answers.lent();
        let harm = if count > lent.len() {
            Some("more bytes returned than lent".to_string())
        } else {
            let run = self.run.changed(0..0).map(|at| format!("the run at {at}"));
            let answers = || self.answers.changed(0..count);
            run.or_else(|| answers().map(|at| format!("the answers' buffer at {at}")))
        };
        Called {
            returned: self.returned,
            written: lent[..count.min(lent.len())].to_vec(),
            harm,
        }
    }

    /// Flips a bit of the answers' buffer, before, in or after the lent part: what a faulty port
    /// would do.
    pub fn spoil_answers(&mut self, place: isize) {
        self.answers.spoil(place);
    }

    /// Other bytes in the lent part.
    pub fn write_answers(&mut self, place: usize, bytes: &[u8]) {
        self.answers.lent_mut()[place..][..bytes.len()].copy_from_slice(bytes);
    }

    /// Flips a bit of the run's buffer.
    pub fn spoil_run(&mut self, place: isize) {
        self.run.spoil(place);
    }

    /// Another number returned.
    pub fn spoil_returned(&mut self, number: usize) {
        self.returned = number;
    }

    pub fn returned(&self) -> usize {
        self.returned
    }
}
