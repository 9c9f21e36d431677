//! The rules of an archive's form, to be broken.
mod keyed;
mod rows;

use texts::generate::broken::rows as of_texts;
use texts::generate::broken::{bytes, changed, ends, lines, making, row, Breaks};

pub const BREAKS: Breaks = Breaks {
    rows: &[
        row("leading zero", &[rows::LEADING_ZERO]),
        row("ten digits", &[rows::TEN_DIGITS]),
        row("minus zero", &[of_texts::MINUS_ZERO, rows::MINUS_ZERO]),
        row("plus sign", &[rows::PLUS]),
        row("minus sign out of place", &[rows::MINUS]),
        row("no digit", &[of_texts::NO_DIGIT_OF_PUT, rows::NO_DIGIT]),
        row("lower-case digit", &[rows::LOWER_CASE]),
        row("weight of other than eight digits", &[rows::WEIGHT_DIGITS]),
        row("word of other than sixteen digits", &[rows::WORD_DIGITS]),
        row("no weight or no chance", &[rows::NO_WEIGHT]),
        row("key of other than sixty-four digits", &[keyed::KEY_DIGITS]),
        row("lower-case digit of a keyed row", &[keyed::KEY_LOWER_CASE]),
        row("no digit in a keyed row", &[keyed::KEY_NO_DIGIT]),
        row("key without a first word", &[keyed::NO_FIRST]),
        row(
            "first word of other than sixteen digits",
            &[keyed::FIRST_DIGITS],
        ),
        row("field after a first word", &[keyed::AFTER_FIRST]),
        row("key out of place", &[keyed::KEY_ELSEWHERE]),
        row("unknown op", &[rows::UNKNOWN_OP]),
        row("add or delete", &[rows::BARE]),
        row("report with an index", &[rows::REPORT_WITH_INDEX]),
        row("dash for an index", &[rows::DASH]),
        row("no index", &[rows::NO_INDEX]),
        row("empty line", &[of_texts::EMPTY_LINE]),
        making("making out of form", rows::MAKING),
    ],
    others: &[
        changed("archive twice", lines::twice),
        changed("two bad rows", lines::two_bad_rows),
        changed("bad row after a bad first line", lines::bad_from_start),
        changed("sampled names of a bare making", |lines, _| {
            lines[1] = b"1 4 16".to_vec();
            0
        }),
        bytes("no line feed at the end", ends::no_line_feed),
        bytes("cut short in the first three lines", |bytes, _, words| {
            ends::cut_short(bytes, 55, words)
        }),
        bytes("line feed before all", ends::line_feed_first),
        bytes("line feed alone", ends::line_feed_alone),
        bytes("empty archive", ends::nothing_left),
    ],
};
