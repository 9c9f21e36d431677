//! Lines at and around the longest, and far beyond it, with their line feed and without.
use super::{whole, Given};
use crate::form::MOST_BYTES;
use oracle::Words;
use texts::generate::ones;
use texts::{coordinate_fields, joined};

/// What the long line is.
#[derive(Clone, Copy, Debug)]
pub enum Line {
    Put,
    Report,
    /// An arrival with as many words as there is room for; its index has the digits that are left.
    Arrival,
    /// The first line, or the making's.
    Names,
    Making,
}

#[derive(Clone, Copy, Debug)]
pub struct Length {
    line: Line,
    bytes: usize,
    /// Whether it is the last line and has no line feed.
    open: bool,
}

const fn closed(line: Line, bytes: usize) -> Length {
    let open = false;
    Length { line, bytes, open }
}

const fn open(line: Line, bytes: usize) -> Length {
    let open = true;
    Length { line, bytes, open }
}

pub const LENGTHS: [Length; 33] = [
    closed(Line::Put, MOST_BYTES - 1),
    closed(Line::Put, MOST_BYTES),
    closed(Line::Put, MOST_BYTES + 1),
    closed(Line::Put, MOST_BYTES + 2),
    closed(Line::Put, 2 * MOST_BYTES),
    closed(Line::Put, 2 * MOST_BYTES + 2),
    closed(Line::Put, 65_000),
    closed(Line::Put, 65_535),
    closed(Line::Put, 65_536),
    closed(Line::Put, 65_537),
    closed(Line::Put, 300_000),
    open(Line::Put, MOST_BYTES - 1),
    open(Line::Put, MOST_BYTES),
    open(Line::Put, MOST_BYTES + 1),
    open(Line::Put, 65_000),
    open(Line::Put, 65_535),
    open(Line::Put, 65_536),
    open(Line::Put, 300_000),
    closed(Line::Report, MOST_BYTES),
    closed(Line::Report, MOST_BYTES + 1),
    open(Line::Report, MOST_BYTES),
    closed(Line::Arrival, MOST_BYTES - 1),
    closed(Line::Arrival, MOST_BYTES),
    closed(Line::Arrival, MOST_BYTES + 1),
    open(Line::Arrival, MOST_BYTES),
    open(Line::Arrival, MOST_BYTES + 1),
    closed(Line::Names, MOST_BYTES),
    closed(Line::Names, MOST_BYTES + 1),
    open(Line::Names, 300_000),
    closed(Line::Making, MOST_BYTES),
    closed(Line::Making, MOST_BYTES + 1),
    closed(Line::Making, 300_000),
    open(Line::Making, 300_000),
];

/// A short archive with such a line in it.
pub fn given(length: &Length, words: &mut Words) -> Given {
    let mut lines = whole::short(words).lines();
    let in_place = match length.line {
        Line::Names => 0,
        Line::Making => 1,
        _ => 3 + words.below(lines.len() - 2),
    };
    let line = line(length, &lines[in_place.min(1)]);
    assert_eq!(line.len(), length.bytes);
    match in_place < 3 {
        true => lines[in_place] = line,
        false => lines.insert(in_place, line),
    }
    if length.open {
        lines.truncate(in_place + 1);
    }
    let mut bytes = joined(&lines);
    if length.open {
        bytes.pop();
    }
    let kind = "a long line";
    match (in_place, length.bytes > MOST_BYTES || length.open) {
        (0 | 1, _) => Given::bad(kind, bytes, 0),
        (place, true) => Given::bad(kind, bytes, place - 2),
        // what the other rows are needs the reader
        (_, false) => Given::untold(kind, bytes),
    }
}

/// The line, of exactly the length.
fn line(length: &Length, before: &[u8]) -> Vec<u8> {
    let bytes = length.bytes;
    match length.line {
        Line::Put => row_of_ones("0 0", bytes),
        Line::Report => row_of_ones("4 -", bytes),
        Line::Arrival => {
            let digits = (bytes - 11) % 17;
            let words = (bytes - 11) / 17;
            let index = "100000000".get(..digits).expect("few digits are left");
            let words = " 8000000000000000".repeat(words);
            format!("3 {index} BF800000{words}").into_bytes()
        }
        Line::Names | Line::Making => {
            let mut line = before.to_vec();
            line.resize(bytes, before[0]);
            line
        }
    }
}

/// A row of so many bytes, with ones after its start.
pub fn row_of_ones(start: &str, bytes: usize) -> Vec<u8> {
    let fields = coordinate_fields(&ones(bytes - start.len()));
    [start, &fields].concat().into_bytes()
}
