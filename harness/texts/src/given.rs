//! A text that was made up for a program, and how it reads where its generator knows, so that the reader of
//! its form can be held against that.
use crate::in_form::{Head, InForm, OpRow};

/// `T` is what a text in form reads as.
#[derive(Clone)]
pub struct Given<T> {
    /// What is tried with it.
    pub kind: &'static str,
    pub bytes: Vec<u8>,
    /// How it reads: the text or its first bad row. None where only the reader can tell.
    pub known: Option<Result<T, usize>>,
}

impl<M: Head, R: OpRow> Given<InForm<M, R>> {
    pub fn in_form(kind: &'static str, text: InForm<M, R>) -> Self {
        Given {
            kind,
            bytes: text.bytes(),
            known: Some(Ok(text)),
        }
    }
}

impl<T> Given<T> {
    /// One of which this is the first bad row, 0 where it is one of the first three lines.
    pub fn bad(kind: &'static str, bytes: impl Into<Vec<u8>>, row: usize) -> Self {
        Given {
            kind,
            bytes: bytes.into(),
            known: Some(Err(row)),
        }
    }

    pub fn untold(kind: &'static str, bytes: impl Into<Vec<u8>>) -> Self {
        Given {
            kind,
            bytes: bytes.into(),
            known: None,
        }
    }
}
