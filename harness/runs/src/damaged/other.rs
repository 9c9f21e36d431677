//! Damage that turns on there being two kinds of trees, and reports: calls and makings of the other
//! tree, calls that become others, and rows lent beyond all bounds.
use super::{damage, flip, places, write};
use crate::layout::{Call, Making, Run};
use oracle::Words;

/// Rows lent whose answers have more numbers or bytes than 32 bits count, some of them such that what
/// is left after 2^32 is little; and some that only need much.
const ROWS: [u32; 10] = [
    0x3333_3333,
    0x0CCC_CCCD,
    0x0CCC_CCCC,
    0x1999_999A,
    u32::MAX,
    1 << 31,
    1 << 30,
    1 << 28,
    1 << 24,
    1 << 12,
];

/// The bytes of a run, bare or sampled, with a damage of this file or of the other.
pub fn damage_whole(run: &Run, words: &mut Words) -> Vec<u8> {
    let mut bytes = run.encode();
    let places = places(run);
    let any = words.one_of(&places);
    match words.below(10) {
        0 => insert(&mut bytes, any, call_of_other(run, words)),
        1 => insert(&mut bytes, any, making_of_other(run)),
        2 => write(&mut bytes, 0, 3 - run.making.kind()),
        3 => write(&mut bytes, any, 3 + words.below(9) as u32),
        4 => lend_other_rows(run, &mut bytes, words),
        _ => return damage(run, words),
    }
    bytes
}

fn insert(bytes: &mut Vec<u8>, place: usize, more: Vec<u8>) {
    bytes.splice(place..place, more);
}

/// A whole call that only the other kind of run has.
fn call_of_other(run: &Run, words: &mut Words) -> Vec<u8> {
    let fed = vec![words.word(); run.making.capacity.min(3) as usize];
    let calls = match run.making.initial {
        None => [
            Call::Arrival {
                index: 0,
                weight: 0,
                start: 0,
                words: fed,
            },
            Call::Sample,
        ],
        Some(_) => [
            Call::Add {
                index: 0,
                words: fed,
            },
            Call::Delete { index: 0 },
        ],
    };
    let mut bytes = Vec::new();
    calls[words.below(2)].write(&mut bytes);
    bytes
}

/// A making of the other kind of tree.
fn making_of_other(run: &Run) -> Vec<u8> {
    let other = Making {
        initial: match run.making.initial {
            None => Some(run.making.share),
            Some(_) => None,
        },
        ..run.making
    };
    let mut bytes = Vec::new();
    other.write(&mut bytes);
    bytes
}

/// Another number of rows lent in a report.
fn lend_other_rows(run: &Run, bytes: &mut [u8], words: &mut Words) {
    let spans = run.spans();
    let reports = spans
        .iter()
        .filter(|span| matches!(span.call, Some(Call::Report { .. })));
    let places: Vec<usize> = reports.map(|span| span.run.start + 4).collect();
    match places.is_empty() {
        true => flip(bytes, words),
        false => write(bytes, words.one_of(&places), words.one_of(&ROWS)),
    }
}
