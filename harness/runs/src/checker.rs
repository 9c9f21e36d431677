//! A second reading of docs/LAYOUT.md, apart from `decode`: it looks at places and lengths only
//! and keeps no call. Both must agree on which bytes are a run.
use crate::layout::Making;
use crate::refusals::making_refusal;

/// What the bytes alone settle.
#[derive(Clone, Copy, Debug, PartialEq)]
pub enum Checked {
    OutOfLayout,
    /// In the layout: so many answer bytes are needed.
    Needs(usize),
}

/// The numbers of a call of one kind: so many at least, the count of its list at this place if it
/// has one, and so many for each item.
struct Sizes {
    fixed: u64,
    list: Option<(u64, u64)>,
}

/// The kinds of calls after a making, by the making's kind.
const BARE: [u64; 7] = [3, 4, 5, 7, 8, 9, 10];
const SAMPLED: [u64; 7] = [3, 6, 7, 8, 9, 10, 11];

fn sizes(kind: u64) -> Sizes {
    let (fixed, list) = match kind {
        3 | 7 => (3, Some((2, 1))),
        4 => (3, Some((2, 2))),
        6 => (6, Some((5, 2))),
        11 => (1, None),
        _ => (2, None),
    };
    Sizes { fixed, list }
}

/// How many numbers a call answers. Channels, capacity and rows lent are the run's own numbers, in
/// range or not.
fn answer(kind: u64, channels: u64, capacity: u64, rows: u64) -> u64 {
    match kind {
        3 => 1,
        4 => 3,
        5 | 8 => 2,
        6 => 4,
        7 => 2 + 5 * rows,
        9 => 6,
        10 => 1 + 2 * channels,
        _ => 2 + 2 * capacity,
    }
}

/// Whether the bytes are a run, and how many answer bytes it needs.
pub fn check(bytes: &[u8]) -> Checked {
    if !bytes.len().is_multiple_of(4) {
        return Checked::OutOfLayout;
    }
    let numbers: Vec<u64> = bytes
        .chunks(4)
        .map(|four| (0..4).map(|i| u64::from(four[i]) << (8 * i)).sum())
        .collect();
    needs(&numbers).map_or(Checked::OutOfLayout, Checked::Needs)
}

fn needs(numbers: &[u64]) -> Option<usize> {
    let (made, kinds) = match numbers.first()? {
        1 => (5, BARE),
        2 => (7, SAMPLED),
        _ => return None,
    };
    if numbers.len() < made {
        return None;
    }
    let after = answers_of_calls(numbers, made as u64, &kinds)?;
    let share = |place: usize| numbers[place] + (numbers[place + 1] << 32);
    let making = Making {
        channels: numbers[1] as u32,
        capacity: numbers[2] as u32,
        share: share(3),
        initial: (made == 7).then(|| share(5)),
    };
    Some(match making_refusal(&making) {
        Some(_) => 4,
        None => 4 + 4 * after as usize,
    })
}

/// How many numbers the calls after the making answer; `None`: out of the layout. A call answers less
/// than 2^35 numbers, so 64 bits hold the sum for 2^29 calls.
fn answers_of_calls(numbers: &[u64], made: u64, kinds: &[u64]) -> Option<u64> {
    let end = numbers.len() as u64;
    let (mut place, mut answers) = (made, 0);
    while place < end {
        let at = |offset: u64| numbers.get((place + offset) as usize).copied();
        let kind = at(0)?;
        if !kinds.contains(&kind) {
            return None;
        }
        let rows = if kind == 7 { at(1)? } else { 0 };
        answers += answer(kind, numbers[1], numbers[2], rows);
        let Sizes { fixed, list } = sizes(kind);
        place += match list {
            Some((count, each)) => fixed + each * at(count)?,
            None => fixed,
        };
    }
    (place == end).then_some(answers)
}
