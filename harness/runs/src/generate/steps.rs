//! The single calls of a run: mostly good ones, and for each refusal calls that meet it.
use super::fed::words_for;
use super::readings::{bad_coordinate, bad_count};
use super::setting::Setting;
use super::writer::Writer;
use crate::layout::Call;
use oracle::{Table, Words};

/// What a stretch of a run does to the tree.
#[derive(Clone, Copy)]
pub enum Mode {
    Fill,
    Stir,
    Empty,
}

impl Mode {
    pub const ALL: [Mode; 4] = [Mode::Fill, Mode::Stir, Mode::Stir, Mode::Empty];

    /// Of a hundred steps, how many are of each kind, in the order of `step`.
    fn shares(self) -> [usize; 7] {
        match self {
            Mode::Fill => [78, 6, 3, 1, 4, 4, 4],
            Mode::Stir => [12, 30, 24, 5, 9, 10, 10],
            Mode::Empty => [1, 3, 80, 4, 4, 3, 5],
        }
    }
}

/// Makes one call of a kind that the mode draws.
pub fn step(writer: &mut Writer, mode: Mode) {
    let mut drawn = writer.words.below(100);
    let kinds: [fn(&mut Writer); 7] = [add_new, add_any, delete_held, delete_any, put, odd, query];
    for (kind, share) in kinds.into_iter().zip(mode.shares()) {
        if drawn < share {
            return kind(writer);
        }
        drawn -= share;
    }
}

pub fn any_index(writer: &mut Writer) -> u32 {
    writer.words.one_of(&writer.setting.pool)
}

/// An index whose value is held, or is not, if a few draws find one that is written.
pub fn index_where(writer: &mut Writer, held: bool) -> u32 {
    let mut index = any_index(writer);
    for _ in 0..12 {
        let written = writer.driver.table().point(index as usize).is_some();
        if written && writer.driver.holds(index) == held {
            break;
        }
        index = any_index(writer);
    }
    index
}

fn add(writer: &mut Writer, index: u32) {
    let words = words_for(&writer.driver, index, writer.setting.style, writer.words);
    writer.call(Call::Add { index, words });
}

fn add_new(writer: &mut Writer) {
    let index = if writer.setting.in_order {
        writer.turn += 1;
        writer.setting.pool[(writer.turn - 1) % writer.setting.pool.len()]
    } else {
        index_where(writer, false)
    };
    add(writer, index);
}

fn add_any(writer: &mut Writer) {
    let index = any_index(writer);
    add(writer, index);
}

/// A held value goes by any index of that value, not only by the leaf's.
fn delete_held(writer: &mut Writer) {
    let index = index_where(writer, true);
    writer.call(Call::Delete { index });
}

fn delete_any(writer: &mut Writer) {
    let index = any_index(writer);
    writer.call(Call::Delete { index });
}

/// A reading for an index: drawn, or the one of another index, so that many are equal.
fn reading(writer: &mut Writer, index: u32) -> Vec<u32> {
    let other = any_index(writer) as usize;
    match writer.driver.table().point(other) {
        Some(point) if writer.words.once_in(writer.setting.repeats) => {
            point.iter().map(|x| x.to_bits()).collect()
        }
        _ => {
            let channels = writer.setting.making.channels as usize;
            writer.setting.spread.reading(channels, index, writer.words)
        }
    }
}

/// A put that only a leaf of its index can refuse.
pub fn good_put(writer: &mut Writer, index: u32) {
    let coordinates = reading(writer, index);
    writer.call(Call::Put { index, coordinates });
}

pub fn put(writer: &mut Writer) {
    let index = any_index(writer);
    good_put(writer, index);
}

/// An index that no table has, the table's last, or one that no pool need hold.
pub fn odd_index(words: &mut Words) -> u32 {
    let (size, any) = (Table::SIZE as u32, words.below(Table::SIZE) as u32);
    words.one_of(&[
        size,
        size,
        size + 1,
        u32::MAX,
        1 << 16,
        1 << 31,
        size - 1,
        any,
    ])
}

/// A call that is likely refused, also for more than one cause.
fn odd(writer: &mut Writer) {
    let from_pool = any_index(writer);
    let outside = odd_index(writer.words);
    let index = writer.words.one_of(&[from_pool, outside]);
    match writer.words.below(6) {
        0 => writer.call(Call::Delete { index: outside }),
        1 => add(writer, outside),
        2 => {
            let takes = writer.driver.takes(from_pool);
            let words = vec![0; takes.saturating_sub(1)];
            writer.call(Call::Add {
                index: from_pool,
                words,
            });
        }
        3 => odd_put(writer, index, true, false),
        4 => odd_put(writer, index, false, true),
        _ => odd_put(writer, index, true, true),
    }
}

/// A put with a bad coordinate, a wrong number of coordinates, or both.
pub fn odd_put(writer: &mut Writer, index: u32, coordinate: bool, count: bool) {
    let mut coordinates = reading(writer, index);
    let channels = coordinates.len();
    if coordinate {
        let place = writer.words.below(channels);
        coordinates[place] = bad_coordinate(writer.words);
    }
    if count {
        coordinates.resize(bad_count(channels, writer.words), 0);
    }
    writer.call(Call::Put { index, coordinates });
}

/// A query of any kind for an id of a branch, of a leaf, next to one, or of none.
pub fn query(writer: &mut Writer) {
    let capacity = writer.driver.capacity() as u32;
    let there: Vec<usize> = writer.driver.ids().iter().copied().collect();
    let index = any_index(writer);
    let size = Table::SIZE as u32;
    let words = &mut *writer.words;
    let low = words.below(capacity as usize) as u32;
    let mut ids = vec![low, capacity - 1, capacity - 2, capacity, capacity + index];
    ids.extend([
        capacity + size - 1,
        capacity + size,
        u32::MAX,
        u32::MAX - index,
    ]);
    if !there.is_empty() {
        let id = words.one_of(&there) as u32;
        ids.extend([id; 8]);
    }
    let id = words.one_of(&ids);
    let call = match words.below(3) {
        0 => Call::Copies { id },
        1 => Call::Branch { id },
        _ => Call::Box { id },
    };
    writer.call(call);
}

/// Calls after a making that is refused.
pub fn unanswered(setting: &Setting, words: &mut Words) -> Vec<Call> {
    let put = Call::Put {
        index: 0,
        coordinates: vec![0],
    };
    let words_of_two = vec![1, 2];
    let own = match setting.making.initial {
        None => [
            Call::Add {
                index: 0,
                words: words_of_two,
            },
            Call::Delete { index: 0 },
        ],
        Some(_) => [
            Call::Arrival {
                index: 0,
                weight: 0,
                start: 0,
                words: words_of_two,
            },
            Call::Sample,
        ],
    };
    let queries = [
        Call::Copies { id: 2 },
        Call::Branch { id: 0 },
        Call::Box { id: 0 },
    ];
    let report = Call::Report {
        rows: 3,
        coordinates: vec![0],
    };
    let reported = setting.making.initial.is_some() || setting.reports.is_some();
    let calls: Vec<Call> = [put]
        .into_iter()
        .chain(own)
        .chain(queries)
        .chain(reported.then_some(report))
        .collect();
    let count = words.below(2 * calls.len());
    calls.iter().cycle().take(count).cloned().collect()
}
