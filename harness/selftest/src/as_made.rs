//! Holds how a generated text reads, be it for `treelist` or `regrow`, against what its generator knows of it.
use std::fmt::Debug;
use texts::{Given, Head, InForm, OpRow};

/// Whether the text of this name is in form. Then it is written as it is read.
pub fn in_form<M, R>(
    name: &str,
    given: &Given<InForm<M, R>>,
    read: Result<InForm<M, R>, usize>,
) -> bool
where
    M: Head + Debug + PartialEq,
    R: OpRow + Debug + PartialEq,
{
    if let Some(known) = &given.known {
        assert_eq!(&read, known, "{name}, {}", given.kind);
    }
    if let Ok(text) = &read {
        assert_eq!(text.bytes(), given.bytes, "{name}, {}", given.kind);
    }
    read.is_ok()
}
