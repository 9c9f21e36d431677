//! Bytes that are not quite a run: cut short, with bits flipped, with counts that lie, with kinds
//! that do not belong. Some of them are in the layout all the same.
mod other;

pub use other::damage_whole;

use crate::layout::{Call, Run};
use oracle::Words;

/// Kinds that a call of a bare run may not have, but 7, which makes it another call: a making's, those
/// of a sampled run, unknown ones, and kinds with a bit too many.
const KINDS: [u32; 12] = [
    0,
    1,
    2,
    6,
    7,
    11,
    12,
    3 + 256,
    4 + (1 << 16),
    5 + (1 << 24),
    1 << 31,
    u32::MAX,
];

/// Counts that overflow 32 bits when doubled, or when turned to bytes.
const COUNTS: [u32; 9] = [
    u32::MAX,
    u32::MAX - 1,
    1 << 31,
    (1 << 31) + 1,
    (1 << 31) - 1,
    1 << 30,
    (1 << 30) + 2,
    1 << 29,
    (1 << 29) + 1,
];

/// The bytes of a run with one damage, or now and then two.
pub fn damage(run: &Run, words: &mut Words) -> Vec<u8> {
    let mut bytes = run.encode();
    once(run, &mut bytes, words);
    if words.once_in(5) {
        flip(&mut bytes, words);
    }
    bytes
}

fn once(run: &Run, bytes: &mut Vec<u8>, words: &mut Words) {
    let places = places(run);
    let any = words.below(places.len());
    match words.below(10) {
        0 => bytes.truncate(words.below(bytes.len())),
        1 => bytes.truncate(words.below(bytes.len()) / 4 * 4),
        // at the end of a call: still a run
        2 => bytes.truncate(places[any]),
        3 => bytes.truncate(words.below(24).min(bytes.len())),
        4 | 5 => flip(bytes, words),
        6 => lie(run, &places, bytes, words),
        7 => write(bytes, places[any], words.one_of(&KINDS)),
        8 => {
            let making = bytes[..run.making.run_bytes()].to_vec();
            bytes.splice(places[any]..places[any], making);
        }
        _ => trail(bytes, words),
    }
}

/// Where each call begins, and where the last one ends.
fn places(run: &Run) -> Vec<usize> {
    run.spans().into_iter().map(|span| span.run.end).collect()
}

fn flip(bytes: &mut [u8], words: &mut Words) {
    for _ in 0..words.one_of(&[1, 1, 1, 2, 3]) {
        if !bytes.is_empty() {
            let place = words.below(bytes.len());
            bytes[place] ^= 1 << words.below(8);
        }
    }
}

/// Another count before coordinates or words: huge ones, next to the true one, and next to what would reach
/// the run's end.
fn lie(run: &Run, places: &[usize], bytes: &mut [u8], words: &mut Words) {
    let listed = |(call, place): (&Call, &usize)| {
        let (offset, count) = match call {
            Call::Put { coordinates, .. } | Call::Report { coordinates, .. } => {
                (8, coordinates.len())
            }
            Call::Add { words, .. } => (8, words.len()),
            Call::Arrival { words, .. } => (20, words.len()),
            _ => return None,
        };
        Some((*place + offset, count as u32))
    };
    let lists: Vec<(usize, u32)> = run.calls.iter().zip(places).filter_map(listed).collect();
    if lists.is_empty() {
        return write(bytes, 0, 2);
    }
    let (place, count) = words.one_of(&lists);
    let to_end = ((bytes.len() - place) / 4 - 1) as u32;
    let huge = words.one_of(&COUNTS);
    let near = words.one_of(&[to_end, to_end / 2]);
    let lied = words.one_of(&[
        huge,
        huge,
        huge.wrapping_add(count),
        count + 1,
        count.wrapping_sub(1),
        near,
        near + 1,
        near.wrapping_sub(1),
    ]);
    write(bytes, place, lied);
}

/// Something after the last call: single bytes, or a call that ends too early.
fn trail(bytes: &mut Vec<u8>, words: &mut Words) {
    let kind = words.one_of(&[3, 4, 5, 8, 9, 10, 1, 0]);
    let numbers = [
        kind,
        words.one_of(&[0, 3, u32::MAX]),
        words.one_of(&[0, 1, 9]),
    ];
    let mut more: Vec<u8> = numbers.iter().flat_map(|n| n.to_le_bytes()).collect();
    more.truncate(1 + words.below(12));
    bytes.extend(more);
}

/// Writes a number, unless the place is the run's end.
fn write(bytes: &mut [u8], place: usize, number: u32) {
    if let Some(there) = bytes.get_mut(place..place + 4) {
        there.copy_from_slice(&number.to_le_bytes());
    }
}
