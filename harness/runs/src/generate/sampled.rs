//! Runs of sampled trees: arrivals between puts, reports, queries and looks at the sample, in stretches
//! with a sweep after some.
use super::fed::so_many;
use super::setting::{self, Setting};
use super::steps::{self, any_index, odd_index};
use super::writer::{write_by, Writer};
use super::{reports, Room, Widths, Written};
use crate::arriving::{bad_weight, initial_share, start_word, Weighing, Weights};
use crate::layout::{Call, Making};
use oracle::{walk, Words};

const CAPACITIES: [u32; 26] = [
    2, 2, 2, 3, 3, 4, 5, 6, 7, 8, 9, 12, 16, 17, 24, 31, 32, 33, 49, 64, 100, 128, 200, 255, 256,
    256,
];
/// Words for the starting chance are aimed so near to it, in factors.
const WITHIN: usize = 2;

/// Words for the starting chance.
#[derive(Clone, Copy)]
enum Starts {
    /// Any, also next to the chance.
    Drawn,
    /// Zeros: whatever can start does, so that the sample gets full soon.
    Soonest,
    /// Ones: only what is sure to start does.
    Latest,
}

/// What the arrivals of a run are drawn from.
struct Arrivals {
    weighing: Weighing,
    starts: Starts,
    /// Some weights are those of entries held, or next below, so that there are more evictions and ties.
    lower: bool,
    /// Whether stretches are long.
    long: bool,
}

/// A run that the generator makes up, in this room.
pub fn run(words: &mut Words, room: Room, widths: Widths) -> Written {
    let capacity = capacity(words, room);
    run_of(capacity, words, room, widths)
}

/// The same with this capacity.
pub fn run_of(capacity: u32, words: &mut Words, room: Room, widths: Widths) -> Written {
    let making = Making::sampled(
        widths.channels(words),
        capacity,
        setting::share(capacity, words),
        initial_share(capacity as usize, words),
    );
    run_by(making, words, room)
}

/// The same with this making, which is in range; now and then another takes its place that is not.
pub fn run_by(making: Making, words: &mut Words, room: Room) -> Written {
    let setting = Setting::of(making, words, room);
    let arrivals = Arrivals {
        weighing: Weighing::new(words.one_of(&Weights::ALL), words),
        starts: words.one_of(&[
            Starts::Drawn,
            Starts::Drawn,
            Starts::Soonest,
            Starts::Latest,
        ]),
        lower: !words.once_in(3),
        long: words.once_in(16),
    };
    write_by(setting, words, room, |writer| stretches(writer, arrivals))
}

/// A capacity, mostly one whose sample can be filled twice in half of the room; one in four is any number
/// up to those.
pub fn capacity(words: &mut Words, room: Room) -> u32 {
    let any = words.one_of(&CAPACITIES);
    let filled = |c: u32| c as usize * (24 + 8 * c as usize);
    let fitting: Vec<u32> = CAPACITIES
        .into_iter()
        .filter(|c| 4 * filled(*c) <= room.run && 64 * *c as usize <= room.answers)
        .collect();
    match fitting.last() {
        None => any,
        Some(_) if words.once_in(16) => any,
        Some(last) if words.once_in(4) => words.between(2, *last as i32) as u32,
        Some(_) => words.one_of(&fitting),
    }
}

fn stretches(writer: &mut Writer, mut arrivals: Arrivals) {
    let kept = writer.kept_for_sweep();
    let early = writer.words.below(6);
    (0..early).for_each(|_| step(writer, &mut arrivals));
    writer.first_puts();
    let capacity = writer.driver.capacity();
    for _ in 0..2 + writer.words.below(4) {
        let steps = match arrivals.long {
            true => 1_500,
            false => capacity + writer.words.below(2 * capacity + 120),
        };
        for _ in 0..steps {
            if writer.left().run < kept.run || writer.left().answers < kept.answers {
                break;
            }
            step(writer, &mut arrivals);
        }
        if writer.left().answers > 3 * kept.answers && writer.left().run > 3 * kept.run {
            writer.sweep();
        }
        writer.call(Call::Sample);
    }
    writer.sweep();
    writer.call(Call::Sample);
}

/// One call, mostly an arrival.
fn step(writer: &mut Writer, arrivals: &mut Arrivals) {
    match writer.words.below(100) {
        0..=63 => arrive(writer, arrivals),
        64..=69 => arrive_oddly(writer, arrivals),
        70..=76 => steps::put(writer),
        77..=79 => odd_put(writer),
        80..=89 => reports::report(writer),
        90..=97 => steps::query(writer),
        _ => writer.call(Call::Sample),
    }
}

/// An arrival that can be refused only where its index was never written or its weight is drawn from any
/// pattern.
fn arrive(writer: &mut Writer, arrivals: &mut Arrivals) {
    let index = match writer.setting.in_order {
        true => {
            writer.turn += 1;
            writer.setting.pool[(writer.turn - 1) % writer.setting.pool.len()]
        }
        false => any_index(writer),
    };
    let capacity = writer.driver.capacity();
    let surplus = match writer.words.below(64) {
        0 => 1,
        1 => writer.words.below(9),
        2 if writer.words.once_in(16) => writer.words.one_of(&[257, 300, 600]),
        _ => 0,
    };
    let weight = arrivals.weight(writer);
    call(writer, arrivals, index, weight, capacity + surplus);
    if writer.words.once_in(6) {
        look_above(writer, index);
    }
}

/// The branches of the index's walk, no more than four from the leaf up. The one that its arrival made is
/// often among them, and may soon be gone.
fn look_above(writer: &mut Writer, index: u32) {
    let Some(point) = writer.driver.table().point(index as usize) else {
        return;
    };
    let above = walk(writer.driver.tree(), point);
    for id in above.into_iter().skip(1).take(4) {
        writer.call(Call::Branch { id: id as u32 });
    }
}

/// An arrival that is likely refused, also for more than one cause.
fn arrive_oddly(writer: &mut Writer, arrivals: &mut Arrivals) {
    let capacity = writer.driver.capacity();
    let (from_pool, outside) = (any_index(writer), odd_index(writer.words));
    let words = &mut *writer.words;
    let causes = words.one_of(&[1, 2, 2, 4, 4, 4, 3, 5, 6, 7]);
    let index = if causes & 1 > 0 { outside } else { from_pool };
    let bad = bad_weight(words);
    let any = words.below(capacity);
    let fewer = words.one_of(&[capacity - 1, capacity - 1, any, 0]);
    let weight = match causes & 2 > 0 {
        true => bad,
        false => arrivals.weight(writer),
    };
    let count = if causes & 4 > 0 { fewer } else { capacity };
    call(writer, arrivals, index, weight, count);
}

fn call(writer: &mut Writer, arrivals: &Arrivals, index: u32, weight: u32, count: usize) {
    let start = arrivals.start(writer);
    let style = writer.setting.style;
    let words = so_many(&writer.driver, index, style, count, writer.words);
    writer.call(Call::Arrival {
        index,
        weight,
        start,
        words,
    });
}

impl Arrivals {
    /// The bits of a weight.
    fn weight(&mut self, writer: &mut Writer) -> u32 {
        let heap = writer.driver.sampled().heap();
        if self.lower && !heap.is_empty() && writer.words.once_in(3) {
            let (held, _) = writer.words.one_of(&heap);
            return writer.words.one_of(&[held, held.next_down()]).to_bits();
        }
        let top = heap.first().map(|(top, _)| *top);
        self.weighing.next(top, writer.words).to_bits()
    }

    fn start(&self, writer: &mut Writer) -> u64 {
        match self.starts {
            Starts::Soonest => 0,
            Starts::Latest => u64::MAX,
            Starts::Drawn => {
                let chance = writer.driver.chance().unwrap_or(0.5);
                start_word(chance, WITHIN, writer.words)
            }
        }
    }
}

/// A put with a bad coordinate, a wrong number of coordinates, or both, at any index.
fn odd_put(writer: &mut Writer) {
    let (from_pool, outside) = (any_index(writer), odd_index(writer.words));
    let index = writer.words.one_of(&[from_pool, outside]);
    let (coordinate, count) =
        writer
            .words
            .one_of(&[(true, false), (false, true), (true, true), (false, false)]);
    steps::odd_put(writer, index, coordinate, count);
}
