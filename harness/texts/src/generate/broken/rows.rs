//! Rows out of form, by the rule that they break.
use super::BadRows;

pub const LEADING_ZERO: BadRows = &[
    b"0 00 1",
    b"01 0",
    b"0 0 01",
    b"00 0 0",
    b"0 0 -01",
    b"2 007",
    b"0 0 1 00",
    b"1 01 8000000000000000",
];
pub const TEN_DIGITS: BadRows = &[
    b"0 0 1000000000",
    b"0 1000000000 1",
    b"2 1234567890",
    b"0 0 -1000000000",
    b"0 0 4294967296",
    b"1 4294967296",
    b"0 0 18446744073709551616",
    b"0000000001 0",
];
pub const MINUS_ZERO: BadRows = &[b"0 0 -0", b"0 1 5 -0", b"0 0 -0 1", b"0 0 -00"];
pub const PLUS: BadRows = &[b"0 0 +1", b"0 +0 1", b"+1 0", b"2 +3", b"0 0 +0"];
pub const MINUS: BadRows = &[
    b"0 -1 0",
    b"-1 0 0",
    b"2 -3",
    b"1 -1",
    b"2 -0",
    b"-0 0 0",
    b"0 0 -",
    b"0 0 --1",
    b"0 0 1-",
    b"0 0 - 1",
    b"1 0 -800000000000000",
];
/// Puts, which every form has.
pub const NO_DIGIT_OF_PUT: BadRows = &[
    b"0 0 A",
    b"0 0 /",
    b"0 0 :",
    b"0 a 0",
    b"0 0 1.5",
    b"0 0 1e3",
    b"0 0 0x1",
    b"0 0 1,000",
    b"x",
];
pub const NO_DIGIT: BadRows = &[
    b"1 0 G000000000000000",
    b"1 0 :000000000000000",
    b"1 0 @000000000000000",
    b"1 0 /000000000000000",
    b"1 0 0x80000000000000",
    b"op index rest",
    b"id dimension cut left right mass",
];
pub const LOWER_CASE: BadRows = &[
    b"1 0 800000000000000a",
    b"1 0 abcdefabcdefabcd",
    b"1 1 FFFFFFFFFFFFFFFf",
    b"1 0 8000000000000000 f000000000000000",
];
pub const FIFTEEN_DIGITS: BadRows = &[
    b"1 0 800000000000000",
    b"1 0 8000000000000000 800000000000000",
    b"1 0 0",
    b"1 0 80000000",
];
pub const SEVENTEEN_DIGITS: BadRows = &[
    b"1 0 80000000000000000",
    b"1 0 00000000000000000",
    b"1 0 80000000000000008000000000000000",
];
pub const UNKNOWN_OP: BadRows = &[
    b"3 0",
    b"4 0 0",
    b"9 0",
    b"10 0",
    b"999999999 0",
    b"3",
    b"8 4",
    b"256 0 0",
];
pub const DELETE_WITH_REST: BadRows = &[
    b"2 0 0",
    b"2 0 8000000000000000",
    b"2 0 -1",
    b"2 0 ",
    b"2 999999999 1 1",
];
pub const NO_INDEX: BadRows = &[b"0", b"1", b"2", b"0 ", b"1 ", b"2 ", b" "];
pub const EMPTY_LINE: BadRows = &[b""];

/// The making's row, out of form.
pub const MAKING: BadRows = &[
    b"1 4",
    b"1",
    b"",
    b"1 4 16 1",
    b"01 4 16",
    b"1 04 16",
    b"1 4 016",
    b"1 4 1234567890",
    b"1000000000 4 16",
    b"-1 4 16",
    b"1 4 -16",
    b"1 4 -0",
    b"+1 4 16",
    b"1  4 16",
    b" 1 4 16",
    b"1 4 16 ",
    b"1\t4 16",
    b"1 4 16\r",
    b"1 4 16\0",
    b"1 4 F",
    b"1 4 1.0",
];
