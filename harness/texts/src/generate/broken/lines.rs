//! Breaks in the lines of a text, each with the first bad row that it leaves.
use super::Lines;
use oracle::Words;

/// The lines before the op rows.
pub const BEFORE: usize = 3;

/// A place among the op rows, from 0; a row is made where there is none.
fn some_row(lines: &mut Lines, words: &mut Words) -> usize {
    if lines.len() == BEFORE {
        lines.push(b"0 0 0".to_vec());
    }
    words.below(lines.len() - BEFORE)
}

/// A byte put into a row, anywhere or at its end.
fn put_in(lines: &mut Lines, words: &mut Words, byte: u8) -> usize {
    let row = some_row(lines, words);
    let line = &mut lines[BEFORE + row];
    let end = line.len();
    let anywhere = words.below(end + 1);
    line.insert(words.one_of(&[anywhere, end]), byte);
    row + 1
}

/// One of a row's spaces, all of which part fields.
fn some_space(line: &[u8], words: &mut Words) -> usize {
    let spaces: Vec<usize> = (0..line.len()).filter(|n| line[*n] == b' ').collect();
    words.one_of(&spaces)
}

pub fn two_spaces(lines: &mut Lines, words: &mut Words) -> usize {
    let row = some_row(lines, words);
    let line = &mut lines[BEFORE + row];
    line.insert(some_space(line, words), b' ');
    row + 1
}

pub fn space_at_end(lines: &mut Lines, words: &mut Words) -> usize {
    let row = some_row(lines, words);
    lines[BEFORE + row].push(b' ');
    row + 1
}

pub fn space_at_start(lines: &mut Lines, words: &mut Words) -> usize {
    let row = some_row(lines, words);
    lines[BEFORE + row].insert(0, b' ');
    row + 1
}

/// A tab in place of a space, or besides what stands there.
pub fn tab(lines: &mut Lines, words: &mut Words) -> usize {
    if words.once_in(2) {
        return put_in(lines, words, b'\t');
    }
    let row = some_row(lines, words);
    let line = &mut lines[BEFORE + row];
    let place = some_space(line, words);
    line[place] = b'\t';
    row + 1
}

pub fn carriage_return(lines: &mut Lines, words: &mut Words) -> usize {
    put_in(lines, words, b'\r')
}

/// A carriage return before every line feed.
pub fn carriage_returns(lines: &mut Lines, _: &mut Words) -> usize {
    for line in lines {
        line.push(b'\r');
    }
    0
}

pub fn zero_byte(lines: &mut Lines, words: &mut Words) -> usize {
    put_in(lines, words, 0)
}

/// Any other byte that no rule names.
pub fn unnamed_byte(lines: &mut Lines, words: &mut Words) -> usize {
    let byte = words.one_of(b"\x01\x0B\x0C\x1A\x1B\x7F\x80\xA0\xC2\xFF#;_\"");
    put_in(lines, words, byte)
}

/// A names line with a byte more, a byte less or another byte.
pub fn names_changed(lines: &mut Lines, words: &mut Words) -> usize {
    let line = &mut lines[words.one_of(&[0, 2])];
    let place = words.below(line.len());
    match words.below(4) {
        0 => line.push(b' '),
        1 => line.insert(place, b' '),
        2 => drop(line.remove(place)),
        _ => line[place] ^= 0x20,
    }
    0
}

pub fn names_missing(lines: &mut Lines, words: &mut Words) -> usize {
    lines.remove(words.one_of(&[0, 2]));
    0
}

pub fn names_swapped(lines: &mut Lines, _: &mut Words) -> usize {
    lines.swap(0, 2);
    0
}

pub fn no_making(lines: &mut Lines, _: &mut Words) -> usize {
    lines.remove(1);
    0
}

pub fn two_makings(lines: &mut Lines, _: &mut Words) -> usize {
    lines.insert(1, lines[1].clone());
    0
}

pub fn byte_order_mark(lines: &mut Lines, _: &mut Words) -> usize {
    lines[0].splice(0..0, *b"\xEF\xBB\xBF");
    0
}

pub fn empty_line_at_end(lines: &mut Lines, _: &mut Words) -> usize {
    lines.push(vec![]);
    lines.len() - BEFORE
}

/// The whole text once more after itself: its names line is no row.
pub fn twice(lines: &mut Lines, _: &mut Words) -> usize {
    let rows = lines.len() - BEFORE;
    lines.extend(lines.clone());
    rows + 1
}

/// Two bad rows, of which the first counts.
pub fn two_bad_rows(lines: &mut Lines, words: &mut Words) -> usize {
    let row = some_row(lines, words);
    lines.push(b"3 0".to_vec());
    lines[BEFORE + row].push(b' ');
    row + 1
}

/// A bad row, and a bad line before the rows, which counts.
pub fn bad_from_start(lines: &mut Lines, words: &mut Words) -> usize {
    space_at_end(lines, words);
    lines[words.below(BEFORE)].push(b' ');
    0
}

/// A making that would be refused, but the form comes first.
pub fn refused_making(lines: &mut Lines, words: &mut Words) -> usize {
    lines[1] = words
        .one_of(&[b"9 1 17", b"0 4 16", b"1 0 16", b"1 4 17"])
        .to_vec();
    space_at_end(lines, words)
}
