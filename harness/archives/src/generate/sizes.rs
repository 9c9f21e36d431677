//! Archives of exact sizes, at and around multiples of what a program may read at once, so that their end, or the end
//! or the middle of one of their lines, lies there.
use super::lengths::row_of_ones;
use super::{whole, Given};
use oracle::Words;
use texts::joined;

/// What lies at a byte.
#[derive(Clone, Copy, Debug)]
pub enum There {
    /// The end of the archive, with its line feed or without.
    End,
    OpenEnd,
    /// The end of a line, its line feed the last byte before.
    LineEnd,
    /// The middle of a row that is in form, or out of it by its last byte.
    Row,
    BadRow,
}

const THERE: [There; 5] = [
    There::End,
    There::OpenEnd,
    There::LineEnd,
    There::Row,
    There::BadRow,
];
const READ: usize = 65_536;
const BYTES: [usize; 9] = [
    4_096,
    READ - 1,
    READ,
    READ + 1,
    2 * READ - 1,
    2 * READ,
    2 * READ + 1,
    3 * READ,
    5 * READ,
];

/// How many there are: each of these at each byte.
pub const SIZES: usize = THERE.len() * BYTES.len();

/// An archive filled with rows up to the byte.
pub fn given(n: usize, words: &mut Words) -> Given {
    let (there, bytes) = (THERE[n % THERE.len()], BYTES[n / THERE.len()]);
    let rest = 2 + words.below(60);
    let filled = match there {
        There::OpenEnd => bytes + 1,
        There::Row | There::BadRow => bytes + rest,
        There::End | There::LineEnd => bytes,
    };
    let mut lines = whole::within(words, bytes / 5).lines();
    fill(&mut lines, filled);
    let filled_rows = lines.len() - 3;
    if matches!(there, There::BadRow) {
        *lines[2 + filled_rows].last_mut().expect("no row is empty") = b'-';
    }
    if matches!(there, There::LineEnd | There::Row | There::BadRow) {
        lines.extend(whole::short(words).lines().split_off(3));
    }
    let mut bytes = joined(&lines);
    if matches!(there, There::OpenEnd) {
        bytes.pop();
    }
    let kind = "filled to a size";
    match there {
        There::OpenEnd | There::BadRow => Given::bad(kind, bytes, filled_rows),
        There::End | There::LineEnd | There::Row => Given::untold(kind, bytes),
    }
}

/// Adds puts of too many coordinates until the lines have exactly so many bytes, or leaves out rows where they have
/// more. The last is a report of any length.
fn fill(lines: &mut Vec<Vec<u8>>, bytes: usize) {
    let has = |lines: &[Vec<u8>]| lines.iter().map(|line| line.len() + 1).sum::<usize>();
    let row = row_of_ones("0 0", 211);
    let last = row.len();
    while has(lines) + last > bytes {
        lines.pop();
    }
    let mut left = bytes - has(lines);
    while left > 2 * last {
        left -= row.len() + 1;
        lines.push(row.clone());
    }
    lines.push(row_of_ones("4 -", left - 1));
}
