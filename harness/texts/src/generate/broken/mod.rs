//! Texts with one rule of form broken, and the bad row that this makes.
pub mod ends;
pub mod lines;
pub mod rows;

use crate::in_form::{joined, Head, InForm, OpRow};
use crate::Given;
use lines::BEFORE;
use oracle::Words;

type Lines = Vec<Vec<u8>>;

/// Rows out of form.
pub type BadRows = &'static [&'static [u8]];

enum How {
    /// One row of these lists is put between the op rows.
    Row(&'static [BadRows]),
    /// One of these is the making's row.
    Making(BadRows),
    /// The lines are changed; the answer is the first bad row.
    Lines(fn(&mut Lines, &mut Words) -> usize),
    /// The bytes are changed, with so many op rows in them; the answer is the first bad row.
    Bytes(fn(&mut Vec<u8>, usize, &mut Words) -> usize),
}

/// A rule of form, and how it is broken.
pub struct Break {
    pub name: &'static str,
    how: How,
}

/// The rules of a form.
pub struct Breaks {
    /// Those of its rows and its making. The rules of lines come next.
    pub rows: &'static [Break],
    /// All others.
    pub others: &'static [Break],
}

impl Breaks {
    pub const fn count(&self) -> usize {
        self.rows.len() + OF_LINES.len() + self.others.len()
    }

    pub fn nth(&self, n: usize) -> &'static Break {
        let mut all = self.rows.iter().chain(&OF_LINES).chain(self.others);
        all.nth(n).expect("one of so many")
    }
}

pub const fn row(name: &'static str, rows: &'static [BadRows]) -> Break {
    let how = How::Row(rows);
    Break { name, how }
}

pub const fn changed(name: &'static str, change: fn(&mut Lines, &mut Words) -> usize) -> Break {
    let how = How::Lines(change);
    Break { name, how }
}

pub const fn bytes(
    name: &'static str,
    change: fn(&mut Vec<u8>, usize, &mut Words) -> usize,
) -> Break {
    let how = How::Bytes(change);
    Break { name, how }
}

pub const fn making(name: &'static str, rows: BadRows) -> Break {
    let how = How::Making(rows);
    Break { name, how }
}

/// The rules of lines, which every form has.
const OF_LINES: [Break; 15] = [
    changed("two spaces", lines::two_spaces),
    changed("space at the end", lines::space_at_end),
    changed("space at the start", lines::space_at_start),
    changed("tab", lines::tab),
    changed("carriage return", lines::carriage_return),
    changed("carriage returns", lines::carriage_returns),
    changed("zero byte", lines::zero_byte),
    changed("byte that no rule names", lines::unnamed_byte),
    changed("names line changed", lines::names_changed),
    changed("names line missing", lines::names_missing),
    changed("names lines swapped", lines::names_swapped),
    changed("no making row", lines::no_making),
    changed("two making rows", lines::two_makings),
    changed("byte order mark", lines::byte_order_mark),
    changed("empty line at the end", lines::empty_line_at_end),
];

/// The rules of a text of `treelist`.
pub const BREAKS: Breaks = Breaks {
    rows: &[
        row("leading zero", &[rows::LEADING_ZERO]),
        row("ten digits", &[rows::TEN_DIGITS]),
        row("minus zero", &[rows::MINUS_ZERO]),
        row("plus sign", &[rows::PLUS]),
        row("minus sign out of place", &[rows::MINUS]),
        row("no digit", &[rows::NO_DIGIT_OF_PUT, rows::NO_DIGIT]),
        row("lower-case digit", &[rows::LOWER_CASE]),
        row("fifteen digits", &[rows::FIFTEEN_DIGITS]),
        row("seventeen digits", &[rows::SEVENTEEN_DIGITS]),
        row("unknown op", &[rows::UNKNOWN_OP]),
        row("delete with a rest", &[rows::DELETE_WITH_REST]),
        row("no index", &[rows::NO_INDEX]),
        row("empty line", &[rows::EMPTY_LINE]),
        making("making out of form", rows::MAKING),
    ],
    others: &[
        changed("text twice", lines::twice),
        changed("two bad rows", lines::two_bad_rows),
        changed("bad row after a bad first block", lines::bad_from_start),
        changed("bad row after a refused making", lines::refused_making),
        bytes("no line feed at the end", ends::no_line_feed),
        bytes("cut short in the first three lines", |bytes, _, words| {
            ends::cut_short(bytes, 45, words)
        }),
        bytes("line feed before all", ends::line_feed_first),
        bytes("line feed alone", ends::line_feed_alone),
        bytes("empty text", ends::nothing_left),
    ],
};

impl Break {
    /// The text with the rule broken.
    pub fn given<M: Head, R: OpRow>(
        &self,
        text: &InForm<M, R>,
        words: &mut Words,
    ) -> Given<InForm<M, R>> {
        let (bytes, bad) = self.apply(text.lines(), words);
        Given::bad(self.name, bytes, bad)
    }

    /// The bytes of these lines with the rule broken, and the first bad row.
    fn apply(&self, mut lines: Lines, words: &mut Words) -> (Vec<u8>, usize) {
        let rows = lines.len() - BEFORE;
        let bad = match self.how {
            How::Row(bad) => {
                let place = words.below(rows + 1);
                lines.insert(BEFORE + place, words.one_of(&bad.concat()).to_vec());
                place + 1
            }
            How::Making(bad) => {
                lines[1] = words.one_of(bad).to_vec();
                0
            }
            How::Lines(change) => change(&mut lines, words),
            How::Bytes(change) => {
                let mut bytes = joined(&lines);
                let bad = change(&mut bytes, rows, words);
                return (bytes, bad);
            }
        };
        (joined(&lines), bad)
    }
}
