//! Where the making and each call of a run lie in its bytes, and their answers in the answer bytes.
use crate::layout::{Call, Run};
use std::ops::Range;

/// The making or a call, with its bytes' places.
pub struct Span<'a> {
    /// `None`: the making.
    pub call: Option<&'a Call>,
    pub run: Range<usize>,
    /// Its answer's place, if the making is not refused.
    pub answer: Range<usize>,
}

impl Run {
    /// The making's, then one for each call.
    pub fn spans(&self) -> Vec<Span<'_>> {
        let mut spans = vec![Span {
            call: None,
            run: 0..self.making.run_bytes(),
            answer: 0..4,
        }];
        let (mut run, mut answer) = (self.making.run_bytes(), 4);
        for call in &self.calls {
            let (from, answered) = (run, answer);
            run += call.run_bytes();
            answer += call.answer_bytes(&self.making);
            spans.push(Span {
                call: Some(call),
                run: from..run,
                answer: answered..answer,
            });
        }
        spans
    }
}

impl Span<'_> {
    /// The making or the call, in words.
    pub fn name(&self, run: &Run) -> String {
        match self.call {
            Some(call) => format!("{call:X?}"),
            None => format!("{:X?}", run.making),
        }
    }
}
