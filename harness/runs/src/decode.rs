//! Reads a run from bytes, call by call.
use crate::layout::{Call, Making, Run, MAKE_BARE, MAKE_SAMPLED};

/// The run that the bytes are, unless they are out of the layout.
pub fn decode(bytes: &[u8]) -> Option<Run> {
    let mut rest = bytes;
    let making = making(&mut rest)?;
    let sampled = making.initial.is_some();
    let mut calls = Vec::new();
    while !rest.is_empty() {
        calls.push(call(&mut rest, sampled)?);
    }
    Some(Run { making, calls })
}

fn making(rest: &mut &[u8]) -> Option<Making> {
    let sampled = match number(rest)? {
        MAKE_BARE => false,
        MAKE_SAMPLED => true,
        _ => return None,
    };
    Some(Making {
        channels: number(rest)?,
        capacity: number(rest)?,
        share: word(rest)?,
        initial: match sampled {
            true => Some(word(rest)?),
            false => None,
        },
    })
}

/// A call of a bare run, or of a sampled one.
fn call(rest: &mut &[u8], sampled: bool) -> Option<Call> {
    Some(match (number(rest)?, sampled) {
        (3, _) => Call::Put {
            index: number(rest)?,
            coordinates: many(rest, number)?,
        },
        (4, false) => Call::Add {
            index: number(rest)?,
            words: many(rest, word)?,
        },
        (5, false) => Call::Delete {
            index: number(rest)?,
        },
        (6, true) => Call::Arrival {
            index: number(rest)?,
            weight: number(rest)?,
            start: word(rest)?,
            words: many(rest, word)?,
        },
        (7, _) => Call::Report {
            rows: number(rest)?,
            coordinates: many(rest, number)?,
        },
        (8, _) => Call::Copies { id: number(rest)? },
        (9, _) => Call::Branch { id: number(rest)? },
        (10, _) => Call::Box { id: number(rest)? },
        (11, true) => Call::Sample,
        _ => return None,
    })
}

/// A count, then so many items. A count that lies ends at the run's end, not at a full memory.
fn many<T>(rest: &mut &[u8], item: fn(&mut &[u8]) -> Option<T>) -> Option<Vec<T>> {
    let count = number(rest)?;
    (0..count).map(|_| item(rest)).collect()
}

fn number(rest: &mut &[u8]) -> Option<u32> {
    let (bytes, after) = rest.split_first_chunk()?;
    *rest = after;
    Some(u32::from_le_bytes(*bytes))
}

fn word(rest: &mut &[u8]) -> Option<u64> {
    let (bytes, after) = rest.split_first_chunk()?;
    *rest = after;
    Some(u64::from_le_bytes(*bytes))
}
