//! Reports: queries inside and outside of what a tree holds, on faces and next to them, equal to a leaf
//! or nearly so, with rows enough, too few and more than enough.
use super::readings::{bad_coordinate, bad_count, Spread};
use super::steps::{any_index, index_where};
use super::widths::FEW;
use super::writer::Writer;
use crate::layout::Call;
use crate::refusals::EDGE;
use oracle::{bounds, Words};

/// One report, good or refused.
pub fn report(writer: &mut Writer) {
    let mut coordinates = query(writer);
    let channels = coordinates.len();
    let odd = writer.words.below(24);
    if odd < 2 {
        let place = writer.words.below(channels);
        coordinates[place] = bad_coordinate(writer.words);
    }
    if odd == 1 || odd == 2 {
        coordinates.resize(bad_count(channels, writer.words), 0);
    }
    let rows = rows(writer, &coordinates);
    writer.call(Call::Report { rows, coordinates });
}

/// Rows lent: mostly as many as the walk has.
fn rows(writer: &mut Writer, coordinates: &[u32]) -> u32 {
    let exact = writer.driver.report_rows(coordinates) as u32;
    let words = &mut *writer.words;
    match words.below(32) {
        0..=2 => exact.saturating_sub(1),
        3 => 0,
        4 => words.below(exact as usize + 1) as u32,
        5 | 6 => exact + 1,
        7 | 8 => exact + words.below(12) as u32,
        9 if words.once_in(8) => words.one_of(&[255, 256, 257, 300]),
        _ => exact,
    }
}

fn query(writer: &mut Writer) -> Vec<u32> {
    let channels = writer.setting.making.channels as usize;
    let kinds = if channels > FEW as usize { 16 } else { 10 };
    let whole = match writer.words.below(kinds) {
        0 | 1 => point(writer, true),
        2 => point(writer, false),
        3 | 4 => one_channel_off(writer),
        5 | 6 => by_a_box(writer, false),
        7 => by_a_box(writer, true),
        8 => outermost(channels, writer.words),
        10.. => opposite(writer),
        _ => spread(Spread::Full, writer),
    };
    whole.iter().map(|x| (*x as f32).to_bits()).collect()
}

fn spread(spread: Spread, writer: &mut Writer) -> Vec<i32> {
    let channels = writer.setting.making.channels as usize;
    let bits = spread.reading(channels, 0, writer.words);
    whole(bits.iter().map(|x| f32::from_bits(*x)))
}

/// A reading of the table, held or not; any reading where none is found.
fn point(writer: &mut Writer, held: bool) -> Vec<i32> {
    let index = match held {
        true => index_where(writer, true),
        false => any_index(writer),
    };
    match writer.driver.table().point(index as usize) {
        Some(point) => whole(point.iter().copied()),
        None => spread(writer.setting.spread, writer),
    }
}

/// A held reading with another number in one channel.
fn one_channel_off(writer: &mut Writer) -> Vec<i32> {
    let mut query = point(writer, true);
    let words = &mut *writer.words;
    let channel = words.below(query.len());
    let x = query[channel];
    let any = words.between(-EDGE, EDGE);
    query[channel] = within(words.one_of(&[x - 1, x + 1, -x, any, EDGE, -EDGE]));
    query
}

/// On the faces of a branch's box, within them, and where `outside` next to them or further away.
fn by_a_box(writer: &mut Writer, outside: bool) -> Vec<i32> {
    let Some((low, high)) = branch_box(writer) else {
        return point(writer, true);
    };
    let words = &mut *writer.words;
    let away = words.one_of(&[1, 1, 2, 1 << 10, 1 << 19]);
    let side = |(&low, &high): (&i32, &i32)| match words.below(if outside { 6 } else { 3 }) {
        0 => low,
        1 => high,
        2 => words.between(low, high),
        3 => within(low - away),
        4 => within(high + away),
        _ => words.between(low, high),
    };
    low.iter().zip(&high).map(side).collect()
}

/// In most channels at the end of the whole range that is further from a branch's box, or next to it, in the others within the box: sums
/// of many such distances pass 2^24, and f32 numbers round them.
fn opposite(writer: &mut Writer) -> Vec<i32> {
    let Some((low, high)) = branch_box(writer) else {
        return point(writer, true);
    };
    let words = &mut *writer.words;
    let within = words.one_of(&[3, 9, usize::MAX, usize::MAX]);
    let beside = words.one_of(&[0, 1, 40, 4_000]);
    let side = |(&low, &high): (&i32, &i32)| match words.once_in(within) {
        true => words.between(low, high),
        false => {
            let x = EDGE - words.between(0, beside);
            if low + high > 0 {
                -x
            } else {
                x
            }
        }
    };
    low.iter().zip(&high).map(side).collect()
}

/// The ends of the box of one of the branches, if there is one.
fn branch_box(writer: &mut Writer) -> Option<(Vec<i32>, Vec<i32>)> {
    let capacity = writer.driver.capacity();
    let branches: Vec<usize> = writer.driver.ids().range(..capacity).copied().collect();
    if branches.is_empty() {
        return None;
    }
    let id = writer.words.one_of(&branches);
    let (low, high) = bounds(writer.driver.tree(), writer.driver.table(), id);
    Some((whole(low), whole(high)))
}

/// As far out as coordinates go, in every channel.
fn outermost(channels: usize, words: &mut Words) -> Vec<i32> {
    let alike = words.one_of(&[-EDGE, EDGE]);
    match words.once_in(2) {
        true => vec![alike; channels],
        false => (0..channels)
            .map(|_| words.one_of(&[-EDGE, EDGE]))
            .collect(),
    }
}

fn within(x: i32) -> i32 {
    x.clamp(-EDGE, EDGE)
}

fn whole(numbers: impl IntoIterator<Item = f32>) -> Vec<i32> {
    numbers.into_iter().map(|x| x as i32).collect()
}
