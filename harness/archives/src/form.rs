//! Reads an archive line by line, as a program must that keeps no more than one: a row that is out of
//! form ends the reading, and those before it stand.
use crate::archive::{Archive, Making, Row};
use chacha20::KEY_BYTES;
use texts::form::{coordinate, exactly, fields, hexadecimal, names, number, numbers, word};
use texts::{Head, OP_NAMES};

/// No row is longer, its line feed not counted.
pub const MOST_BYTES: usize = 8_191;

/// What a text of an archive reads as.
#[derive(Clone, Debug, PartialEq)]
pub struct Read {
    /// The making, and the rows before the first bad one.
    pub archive: Archive,
    /// The first bad row, if there is one.
    pub bad: Option<usize>,
}

impl Read {
    /// The archive, or its first bad row.
    pub fn whole(self) -> Result<Archive, usize> {
        self.bad.map_or(Ok(self.archive), Err)
    }
}

/// How the bytes read; `None` where one of the first three lines is out of form or missing.
pub fn read(bytes: &[u8]) -> Option<Read> {
    let mut rest = bytes;
    names(&mut line(&mut rest)?, Making::NAMES)?;
    let [dimensions, capacity, cache16, initial16] = numbers(&mut line(&mut rest)?)?;
    let making = Making {
        dimensions,
        capacity,
        cache16,
        initial16,
    };
    names(&mut line(&mut rest)?, OP_NAMES)?;
    let (mut rows, mut bad) = (Vec::new(), None);
    while !rest.is_empty() && bad.is_none() {
        match line(&mut rest).and_then(row) {
            Some(row) => rows.push(row),
            None => bad = Some(rows.len() + 1),
        }
    }
    let archive = Archive { making, rows };
    Some(Read { archive, bad })
}

/// Goes past the next line and gives it with its line feed; `None` where it has none or is too long.
fn line<'a>(rest: &mut &'a [u8]) -> Option<&'a [u8]> {
    let end = rest.iter().position(|byte| *byte == b'\n')?;
    let (line, after) = rest.split_at(end + 1);
    *rest = after;
    (end <= MOST_BYTES).then_some(line)
}

fn row(mut line: &[u8]) -> Option<Row> {
    let rest = &mut line;
    let op = number(rest)?;
    exactly(rest, " ")?;
    match op {
        0 => Some(Row::Put {
            index: number(rest)?,
            coordinates: fields(rest, coordinate)?,
        }),
        3 => arrival(rest),
        4 => {
            exactly(rest, "-")?;
            let coordinates = fields(rest, coordinate)?;
            Some(Row::Report { coordinates })
        }
        _ => None,
    }
}

/// An arrival's index, weight and word for the starting chance must be there; or a key and the number of that word, and
/// nothing more. A key is told by its length.
fn arrival(rest: &mut &[u8]) -> Option<Row> {
    let index = number(rest)?;
    exactly(rest, " ")?;
    let weight = hexadecimal(rest, 8)? as u32;
    exactly(rest, " ")?;
    if field_length(rest) == 2 * KEY_BYTES {
        let key = key(rest)?;
        exactly(rest, " ")?;
        let first = word(rest)?;
        return exactly(rest, "\n").map(|()| Row::Keyed {
            index,
            weight,
            key,
            first,
        });
    }
    let start = word(rest)?;
    Some(Row::Arrival {
        index,
        weight,
        start,
        words: fields(rest, word)?,
    })
}

/// How many bytes there are before the next space or line feed.
fn field_length(rest: &[u8]) -> usize {
    let end = rest.iter().position(|byte| b" \n".contains(byte));
    end.unwrap_or(rest.len())
}

/// A key: two upper-case hexadecimal digits to a byte, the high one first.
fn key(rest: &mut &[u8]) -> Option<[u8; KEY_BYTES]> {
    let mut key = [0; KEY_BYTES];
    for byte in &mut key {
        let (mut two, after) = rest.split_at_checked(2)?;
        *byte = hexadecimal(&mut two, 2)? as u8;
        *rest = after;
    }
    Some(key)
}
