//! What a run draws once: its making, the indices it uses, where readings and words come from.
use super::fed::Style;
use super::readings::Spread;
use super::widths::{Widths, FEW};
use super::Room;
use crate::layout::Making;
use oracle::{Table, Words};

const CAPACITIES: [u32; 24] = [
    2, 2, 3, 3, 4, 4, 5, 6, 7, 8, 9, 12, 16, 17, 31, 32, 33, 49, 64, 100, 128, 255, 256, 256,
];

/// What the calls of a run are drawn from.
pub struct Setting {
    pub making: Making,
    /// Whether the making is one that took another's place, mostly a refused one.
    pub spoilt: bool,
    /// The indices that are written, added and deleted.
    pub pool: Vec<u32>,
    pub spread: Spread,
    pub style: Style,
    /// New readings are added in the pool's order.
    pub in_order: bool,
    /// One reading in so many repeats another index's.
    pub repeats: usize,
    /// One step in so many is followed by a report, if reports are asked for at all.
    pub reports: Option<usize>,
}

impl Setting {
    pub fn draw(words: &mut Words, room: Room, widths: Widths) -> Self {
        let capacity = capacity(words, room);
        let channels = widths.channels(words);
        let making = Making::bare(channels, capacity, share(capacity, words));
        Setting::of(making, words, room)
    }

    /// The rest, for a making that is in range; now and then another is put in its place that is not.
    pub fn of(making: Making, words: &mut Words, room: Room) -> Self {
        let chain = words.once_in(8);
        let (spread, style) = match chain {
            true => (Spread::Line, words.one_of(&[Style::Zeros, Style::Ones])),
            false => (spread(&making, words), words.one_of(&Style::ALL)),
        };
        let pool = pool(&making, room, words);
        let spoilt = words.once_in(24);
        Setting {
            making: match spoilt {
                true => bad_making(making, words),
                false => making,
            },
            spoilt,
            pool,
            spread,
            style,
            in_order: chain || words.once_in(6),
            repeats: words.one_of(&[3, 9, 40, usize::MAX]),
            reports: None,
        }
    }
}

/// Where readings are drawn from; those of many channels often lie in one corner, so that distances to them can be long in every channel.
fn spread(making: &Making, words: &mut Words) -> Spread {
    match making.channels > FEW && words.once_in(2) {
        true => Spread::corner(words),
        false => words.one_of(&Spread::ALL),
    }
}

/// A capacity, mostly one whose branches can be asked for in the answers' room.
fn capacity(words: &mut Words, room: Room) -> u32 {
    let any = words.one_of(&CAPACITIES);
    let fitting: Vec<u32> = CAPACITIES
        .into_iter()
        .filter(|c| 64 * *c as usize <= room.answers)
        .collect();
    if fitting.is_empty() || words.once_in(12) {
        return any;
    }
    words.one_of(&fitting)
}

/// A share from 0 to 1, also such that its product with the capacity lies next to a whole number.
pub fn share(capacity: u32, words: &mut Words) -> f64 {
    let any = (words.word() >> 11) as f64 / (1u64 << 53) as f64;
    let part = words.below(capacity as usize + 1) as f64 / f64::from(capacity);
    let below_one = 1.0f64.next_down();
    let beside = words.one_of(&[part, part.next_down(), part.next_up()]);
    words.one_of(&[
        0.0,
        0.0,
        -0.0,
        5e-324,
        0.1,
        0.25,
        0.29,
        1.0 / 3.0,
        0.5,
        0.5,
        1.0 / 49.0,
        below_one,
        1.0,
        1.0,
        any,
        any,
        beside.clamp(0.0, 1.0),
        part,
    ])
}

/// A making with one or more numbers out of range; one of few channels may have 9 in their place, as it is recorded.
fn bad_making(making: Making, words: &mut Words) -> Making {
    let mut bad = making;
    let next = if making.channels > FEW { 33 } else { 9 };
    let channels = words.one_of(&[0, next, 256, u32::MAX]);
    let capacity = words.one_of(&[0, 1, 257, 65_538, u32::MAX]);
    let share = words.one_of(&[
        f64::NAN,
        -f64::NAN,
        f64::INFINITY,
        f64::NEG_INFINITY,
        -5e-324,
        -1.0,
        1.0f64.next_up(),
        2.0,
        f64::from_bits(0x7FF0_0000_0000_0001),
    ]);
    if making.initial.is_some() && !words.once_in(3) {
        bad.initial = Some(share.to_bits());
        if words.once_in(2) {
            return bad;
        }
    }
    let which = words.one_of(&[1, 2, 4, 4, 4, 3, 5, 6, 7]);
    if which & 1 > 0 {
        bad.channels = channels;
    }
    if which & 2 > 0 {
        bad.capacity = capacity;
    }
    if which & 4 > 0 {
        bad.share = share.to_bits();
    }
    bad
}

/// Indices of a run: most runs have more than their capacity, so that the tree gets full. Puts take
/// no more than a quarter of the room.
fn pool(making: &Making, room: Room, words: &mut Words) -> Vec<u32> {
    let capacity = making.capacity as usize;
    let most = room.run / 4 / (12 + 4 * making.channels as usize);
    let wanted = words.one_of(&[
        capacity / 2 + 1,
        capacity + 2,
        capacity * 5 / 4 + 9,
        2 * capacity + 3,
    ]);
    let size = wanted.min(most).clamp(2, Table::SIZE);
    let last = Table::SIZE - 1;
    match words.below(3) {
        // the highest indices
        0 => (0..size).map(|n| (last - n) as u32).rev().collect(),
        // far apart; 7 and the table's size have no common divisor
        1 => (0..size).map(|n| (7 * n % Table::SIZE) as u32).collect(),
        _ => (0..size as u32).collect(),
    }
}
