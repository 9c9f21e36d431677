//! Words for an add or an arrival: how many, and which.
use crate::aimed::{self, Aim, Place};
use crate::Driver;
use oracle::{bounds, walk, Words};

/// How the words of a run are made.
#[derive(Clone, Copy, PartialEq)]
pub enum Style {
    Zeros,
    Ones,
    Any,
    OneBit,
    TopBits,
    Aimed,
    Mixed,
}

impl Style {
    pub const ALL: [Style; 9] = [
        Style::Zeros,
        Style::Ones,
        Style::Any,
        Style::Any,
        Style::OneBit,
        Style::TopBits,
        Style::Aimed,
        Style::Mixed,
        Style::Mixed,
    ];

    /// A word; an aimed one needs the box and the point.
    fn word(self, place: Option<&Place>, words: &mut Words) -> u64 {
        match self {
            Style::Zeros => 0,
            Style::Ones => u64::MAX,
            Style::Any => words.word(),
            Style::OneBit => 1 << words.below(64),
            Style::TopBits => aimed::top_bits(words),
            Style::Aimed => {
                use Aim::*;
                let aim = words.one_of(&[NarrowingTie, AddingTie, SideEnd, UpperEnd, BoxEnd]);
                let any = words.word();
                place
                    .and_then(|place| aimed::word(place, aim, words))
                    .unwrap_or(any)
            }
            Style::Mixed => {
                use Style::*;
                let style = words.one_of(&[Zeros, Ones, Any, Any, OneBit, TopBits, Aimed]);
                style.word(place, words)
            }
        }
    }
}

/// Words for an add of this index: mostly as many as it takes, else fewer or more.
pub fn words_for(driver: &Driver, index: u32, style: Style, words: &mut Words) -> Vec<u64> {
    let takes = driver.takes(index);
    let count = match words.below(48) {
        0 | 1 => takes.saturating_sub(1),
        2 => words.below(takes + 1),
        3 => 0,
        4 => takes + 1,
        5 => takes + words.below(9),
        6 if words.once_in(4) => words.one_of(&[255, 256, 257, 600]),
        _ => takes,
    };
    so_many(driver, index, style, count, words)
}

/// So many words for an add of this index.
pub fn so_many(
    driver: &Driver,
    index: u32,
    style: Style,
    count: usize,
    words: &mut Words,
) -> Vec<u64> {
    let boxes = match style {
        Style::Aimed | Style::Mixed if driver.takes(index) > 0 => boxes(driver, index),
        _ => vec![],
    };
    let point = whole(driver.table().point(index as usize).unwrap_or(&[]));
    (0..count)
        .map(|n| {
            let place = boxes.get(n).map(|(low, high)| Place {
                low,
                high,
                point: &point,
            });
            style.word(place.as_ref(), words)
        })
        .collect()
}

/// The boxes of the index's walk, from the leaf to the root.
fn boxes(driver: &Driver, index: u32) -> Vec<(Vec<i32>, Vec<i32>)> {
    let (tree, table) = (driver.tree(), driver.table());
    let point = table.point(index as usize).expect("written");
    let around = |id| {
        let (low, high) = bounds(tree, table, id);
        (whole(&low), whole(&high))
    };
    walk(tree, point).into_iter().map(around).collect()
}

fn whole(numbers: &[f32]) -> Vec<i32> {
    numbers.iter().map(|x| *x as i32).collect()
}
