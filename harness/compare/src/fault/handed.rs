//! Runs with one number changed before the port is handed them.
use oracle::Words;
use runs::{decode, Call, MOST_CHANNELS};

/// Which number is another.
#[derive(Clone, Copy, Debug, PartialEq)]
pub enum Other {
    /// The top bit of an add's first word.
    Word,
    /// The top bit of an arrival's first word.
    ArrivalWord,
    /// The top bit of a word for the starting chance.
    Start,
    /// A weight's sign.
    Weight,
    /// A query's first coordinate is one more, or one less.
    Query,
    /// 32 channels for 33: what a port does that does not refuse them.
    Taken,
    /// 33 channels for 9 and more: what a port does that refuses those.
    Refused,
}

/// The run with the number changed in one of its calls, if one has it.
pub fn with_other(other: Other, run: &[u8], words: &mut Words) -> Option<Vec<u8>> {
    let mut decoded = decode(run)?;
    if let Some(channels) = other_channels(other, decoded.making.channels) {
        decoded.making.channels = channels;
        return Some(decoded.encode());
    }
    let mut changed = decoded.clone();
    let calls = changed.calls.iter_mut();
    let mut having: Vec<(usize, &mut Call)> = calls
        .enumerate()
        .filter_map(|(n, call)| change(other, call).then_some((n, call)))
        .collect();
    if having.is_empty() {
        return None;
    }
    let any = words.below(having.len());
    let (n, call) = having.swap_remove(any);
    decoded.calls[n] = call.clone();
    Some(decoded.encode())
}

/// The channels in the place of a making's, if it is one of those.
fn other_channels(other: Other, channels: u32) -> Option<u32> {
    match (other, channels) {
        (Other::Taken, 33) => Some(MOST_CHANNELS),
        (Other::Refused, 9..=MOST_CHANNELS) => Some(MOST_CHANNELS + 1),
        _ => None,
    }
}

/// Changes the number, if the call has it.
fn change(other: Other, call: &mut Call) -> bool {
    match (other, call) {
        (Other::Word, Call::Add { words, .. })
        | (Other::ArrivalWord, Call::Arrival { words, .. }) => match words.first_mut() {
            Some(first) => *first ^= 1 << 63,
            None => return false,
        },
        (Other::Start, Call::Arrival { start, .. }) => *start ^= 1 << 63,
        (Other::Weight, Call::Arrival { weight, .. }) => *weight ^= 1 << 31,
        (Other::Query, Call::Report { coordinates, .. }) => match coordinates.first_mut() {
            Some(first) => {
                let x = f32::from_bits(*first);
                let next = if x > 0.0 { x - 1.0 } else { x + 1.0 };
                *first = next.to_bits();
            }
            None => return false,
        },
        _ => return false,
    }
    true
}
