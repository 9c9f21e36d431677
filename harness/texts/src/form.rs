//! Reads a text from its first byte to its last, each rule of form where it stands in document 01.
//! Nothing is split into lines beforehand, so a row that breaks a rule ends the reading there.
use crate::in_form::{Head, OP_NAMES};
use crate::text::{Making, Row, Text};

/// No text has more bytes.
pub const MOST_BYTES: usize = 32 * 1024;

/// The text that the bytes are, or its first bad row.
pub fn read(bytes: &[u8]) -> Result<Text, usize> {
    if bytes.len() > MOST_BYTES {
        return Err(0);
    }
    let mut rest = bytes;
    let making = first_lines(&mut rest).ok_or(0usize)?;
    let mut rows = Vec::new();
    while !rest.is_empty() {
        let row = row(&mut rest);
        rows.push(row.ok_or(rows.len() + 1)?);
    }
    Ok(Text { making, rows })
}

/// The first block and the second's names, all of which are row 0.
fn first_lines(rest: &mut &[u8]) -> Option<Making> {
    names(rest, Making::NAMES)?;
    let [dimensions, capacity, cache16] = numbers(rest)?;
    names(rest, OP_NAMES)?;
    Some(Making {
        dimensions,
        capacity,
        cache16,
    })
}

fn row(rest: &mut &[u8]) -> Option<Row> {
    let op = number(rest)?;
    exactly(rest, " ")?;
    let index = number(rest)?;
    match op {
        0 => Some(Row::Put {
            index,
            coordinates: fields(rest, coordinate)?,
        }),
        1 => Some(Row::Add {
            index,
            words: fields(rest, word)?,
        }),
        2 => exactly(rest, "\n").map(|()| Row::Delete { index }),
        _ => None,
    }
}

/// A line of exactly these names.
pub fn names(rest: &mut &[u8], names: &str) -> Option<()> {
    exactly(rest, names)?;
    exactly(rest, "\n")
}

/// A line of exactly so many numbers, with one space between two.
pub fn numbers<const N: usize>(rest: &mut &[u8]) -> Option<[u32; N]> {
    let mut found = [0; N];
    for (n, place) in found.iter_mut().enumerate() {
        if n > 0 {
            exactly(rest, " ")?;
        }
        *place = number(rest)?;
    }
    exactly(rest, "\n").map(|()| found)
}

/// Any number of fields up to the line feed, each with one space before it.
pub fn fields<T>(rest: &mut &[u8], field: fn(&mut &[u8]) -> Option<T>) -> Option<Vec<T>> {
    let mut found = Vec::new();
    while exactly(rest, "\n").is_none() {
        exactly(rest, " ")?;
        found.push(field(rest)?);
    }
    Some(found)
}

/// At most nine digits and no leading zero.
pub fn number(rest: &mut &[u8]) -> Option<u32> {
    let digits = run_of(rest, b"0123456789");
    let leading = digits.len() > 1 && digits[0] == b'0';
    if leading || !(1..=9).contains(&digits.len()) {
        return None;
    }
    let value = |sum, digit: &u8| 10 * sum + u32::from(digit - b'0');
    Some(digits.iter().fold(0, value))
}

/// A number, or a minus sign and a number other than 0.
pub fn coordinate(rest: &mut &[u8]) -> Option<i32> {
    let minus = exactly(rest, "-").is_some();
    let size = number(rest)? as i32;
    match (minus, size) {
        (false, _) => Some(size),
        (true, 0) => None,
        (true, _) => Some(-size),
    }
}

/// Sixteen upper-case hexadecimal digits.
pub fn word(rest: &mut &[u8]) -> Option<u64> {
    hexadecimal(rest, 16)
}

/// So many upper-case hexadecimal digits, no more and no fewer.
pub fn hexadecimal(rest: &mut &[u8], count: usize) -> Option<u64> {
    let all = b"0123456789ABCDEF";
    let digits = run_of(rest, all);
    if digits.len() != count {
        return None;
    }
    let place = |digit: &u8| all.iter().position(|one| one == digit);
    let value = |sum, digit| Some(16 * sum + place(digit)? as u64);
    digits.iter().try_fold(0, value)
}

/// Goes past these bytes, if they come next.
pub fn exactly(rest: &mut &[u8], bytes: &str) -> Option<()> {
    *rest = rest.strip_prefix(bytes.as_bytes())?;
    Some(())
}

/// Goes past all bytes that come next and are among these.
fn run_of<'a>(rest: &mut &'a [u8], among: &[u8]) -> &'a [u8] {
    let end = rest.iter().position(|byte| !among.contains(byte));
    let (found, after) = rest.split_at(end.unwrap_or(rest.len()));
    *rest = after;
    found
}
