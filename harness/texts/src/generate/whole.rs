//! Texts in form, from the byte runs' generator: their puts, adds and deletes as rows, their making
//! with a share in sixteenths. What a text can't hold becomes something near it that it can.
use super::odd;
use crate::in_form::OpRow;
use crate::text::{Making, Row, Text};
use oracle::Words;
use runs::generate::{self, Room, Widths};
use runs::{Call, Run};

/// No number of a text is larger.
pub const MOST: u32 = 999_999_999;

/// A text of at most `room` bytes.
pub fn text(words: &mut Words, room: usize) -> Text {
    let bytes = room.max(400);
    let room_of_run = Room {
        run: bytes,
        answers: bytes,
    };
    let mut all = of_run(&generate::run(words, room_of_run, Widths::Few).run, words);
    if words.once_in(3) {
        odd::put_in(&mut all, words);
    }
    let mut text = shortened(all, room);
    // only the last tree is printed, and runs often end with an emptied one
    if words.once_in(2) {
        text.rows.truncate(words.below(text.rows.len() + 1));
    }
    text
}

/// A making alone, refused or not.
pub fn without_rows(words: &mut Words) -> Text {
    let mut text = text(words, 300);
    text.rows.clear();
    text
}

/// The rows that there is room for, in order. One that is too long is left out.
pub fn shortened(all: Text, room: usize) -> Text {
    let mut text = Text {
        making: all.making,
        rows: vec![],
    };
    let mut left = room.saturating_sub(text.bytes().len());
    for row in all.rows {
        let bytes = row.line().len() + 1;
        if bytes <= left {
            left -= bytes;
            text.rows.push(row);
        }
    }
    text
}

fn of_run(run: &Run, words: &mut Words) -> Text {
    let making = Making {
        dimensions: run.making.channels.min(MOST),
        capacity: run.making.capacity.min(MOST),
        cache16: cache16(f64::from_bits(run.making.share), words),
    };
    let rows = run.calls.iter().filter_map(|call| row(call, words));
    Text {
        making,
        rows: rows.collect(),
    }
}

/// A share in range where the run's is, else one above it.
fn cache16(share: f64, words: &mut Words) -> u32 {
    match (0.0..=1.0).contains(&share) {
        true => words.below(17) as u32,
        false => too_large_share(words),
    }
}

/// Sixteenths above the range of a share.
pub fn too_large_share(words: &mut Words) -> u32 {
    words.one_of(&[17, 18, 32, 256, 65_536, MOST])
}

/// The row of a call; a query has none.
fn row(call: &Call, words: &mut Words) -> Option<Row> {
    Some(match call {
        Call::Put { index, coordinates } => Row::Put {
            index: (*index).min(MOST),
            coordinates: coordinates.iter().map(|x| whole(*x, words)).collect(),
        },
        Call::Add { index, words } => Row::Add {
            index: (*index).min(MOST),
            words: words.clone(),
        },
        Call::Delete { index } => Row::Delete {
            index: (*index).min(MOST),
        },
        _ => return None,
    })
}

/// The whole number that an f32 is, unless it is none or has too many digits.
pub fn whole(bits: u32, words: &mut Words) -> i32 {
    let x = f32::from_bits(bits);
    let fits = x.abs() < MOST as f32 && x.fract() == 0.0;
    match fits && bits != (-0.0f32).to_bits() {
        true => x as i32,
        false => odd::coordinate(words),
    }
}
