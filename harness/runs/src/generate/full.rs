//! Runs that fill a tree of 256 leaves in few bytes. Each new reading lies outside all others and is
//! parted from them at the root, so that the next one's walk is short.
use super::fed::Style;
use super::readings::Spread;
use super::setting::Setting;
use super::writer::{write_by, Writer};
use super::{Room, Written};
use crate::layout::{Call, Making};
use oracle::Words;

/// Readings next to each other are so far apart.
const STEP: i32 = 16;
/// Words that cut the whole box within a step of its lower or its upper end.
const AT_LOW: u64 = 1 << 54;
const AT_HIGH: u64 = u64::MAX << 54;

const CAPACITY: u32 = 256;
/// Readings that no full tree has room for.
const MORE: u32 = 3;

/// What queries of every branch or of every leaf take of a run.
const QUERIES: usize = 8 * CAPACITY as usize;
/// Walks of so many nodes are short.
const SHORT: usize = 16;

/// The first coordinate of a reading, and the word that parts it from those before.
#[derive(Clone, Copy)]
pub struct Outward {
    pub x: i32,
    pub word: u64,
}

/// So many readings, each at either end of those before, or always at the upper one.
pub fn outward(words: &mut Words, count: u32, one_side: bool) -> Vec<Outward> {
    let (mut low, mut high) = (0, 0);
    let next = |_| {
        let up = one_side || words.once_in(2);
        let (x, word) = match up {
            true => (high + STEP, AT_HIGH),
            false => (low - STEP, AT_LOW),
        };
        (low, high) = (low.min(x), high.max(x));
        Outward { x, word }
    };
    (0..count).map(next).collect()
}

/// How a run is made and grown.
#[derive(Clone, Copy)]
struct Shape {
    channels: u32,
    share: f64,
    one_side: bool,
    /// Whether queries look at the tree when it is full, or at the end.
    asked_full: bool,
}

const SHAPES: [Shape; 4] = [
    Shape {
        channels: 1,
        share: 1.0,
        one_side: false,
        asked_full: true,
    },
    Shape {
        channels: 2,
        share: 0.5,
        one_side: true,
        asked_full: false,
    },
    Shape {
        channels: 1,
        share: 0.0,
        one_side: true,
        asked_full: true,
    },
    Shape {
        channels: 1,
        share: 0.29,
        one_side: false,
        asked_full: false,
    },
];

/// The n-th run: the tree gets full, values more are refused, then taken for others that go, and what is
/// near the root is stirred. Shapes go round with n, and so do queries.
pub fn run(words: &mut Words, room: Room, n: usize) -> Written {
    let shape = SHAPES[n % SHAPES.len()];
    let setting = Setting {
        making: Making::bare(shape.channels, CAPACITY, shape.share),
        spoilt: false,
        pool: (0..CAPACITY + MORE).collect(),
        spread: Spread::Line,
        style: Style::Mixed,
        in_order: true,
        repeats: usize::MAX,
        reports: None,
    };
    write_by(setting, words, room, |writer| fill(writer, shape, n))
}

fn fill(writer: &mut Writer, shape: Shape, n: usize) {
    let readings = outward(writer.words, CAPACITY + MORE, shape.one_side);
    for (index, reading) in (0..).zip(&readings) {
        if index == CAPACITY && shape.asked_full {
            ask(writer, n);
        }
        put(writer, index, reading.x);
        add(writer, index, reading.word);
        if index >= CAPACITY {
            // refused; now another goes, deep in the tree or not
            let gone = writer.words.below(CAPACITY as usize) as u32;
            writer.call(Call::Delete { index: gone });
            add(writer, index, reading.word);
        }
    }
    let kept = if shape.asked_full { 0 } else { QUERIES };
    for _ in 0..CAPACITY {
        if writer.left().run > kept {
            stir(writer);
        }
    }
    if !shape.asked_full {
        ask(writer, n);
    }
}

fn put(writer: &mut Writer, index: u32, x: i32) {
    let mut coordinates = vec![7f32.to_bits(); writer.setting.making.channels as usize];
    coordinates[0] = (x as f32).to_bits();
    writer.call(Call::Put { index, coordinates });
}

/// An add with the same word at each node of the walk.
fn add(writer: &mut Writer, index: u32, word: u64) {
    let words = vec![word; writer.driver.takes(index)];
    writer.call(Call::Add { index, words });
}

/// A delete, a value that is added again or finds the tree full, a copy more, or a reading written again.
/// What was added last has the shortest walks, unless it was written again.
fn stir(writer: &mut Writer) {
    let words = &mut *writer.words;
    let any = words.below((CAPACITY + MORE) as usize) as u32;
    let late = CAPACITY + MORE - 1 - words.below(12) as u32;
    let word = words.word();
    match words.below(8) {
        0 => writer.call(Call::Delete { index: any }),
        1 | 2 => writer.call(Call::Delete { index: late }),
        3..=5 if writer.driver.takes(late) <= SHORT => add(writer, late, word),
        6 if writer.driver.holds(any) => add(writer, any, word),
        _ => {
            let x = writer.words.between(-4_000, 4_000);
            put(writer, late, x);
        }
    }
}

/// Asks for every branch, for every box or for the copies of every leaf.
fn ask(writer: &mut Writer, n: usize) {
    let ids: Vec<u32> = writer.driver.ids().iter().map(|id| *id as u32).collect();
    let (branches, leaves): (Vec<u32>, Vec<u32>) = ids.into_iter().partition(|id| *id < CAPACITY);
    let queries: Vec<Call> = match n % 3 {
        0 => branches.into_iter().map(|id| Call::Branch { id }).collect(),
        1 => branches.into_iter().map(|id| Call::Box { id }).collect(),
        _ => leaves.into_iter().map(|id| Call::Copies { id }).collect(),
    };
    queries.into_iter().for_each(|query| writer.call(query));
}
