//! Keyed rows out of form, by the rule that they break. In form are a key of 64 digits and a number of 16 behind it.
use texts::generate::broken::BadRows;

/// Rows with this where a key and what follows it stand.
macro_rules! rows {
    ($($row:expr),* $(,)?) => {
        &[$(concat!("3 0 BF800000 ", $row).as_bytes()),*]
    };
}

pub const KEY_DIGITS: BadRows = rows![
    "00102030405060708090A0B0C0D0E0F101112131415161718191A1B1C1D1E1F 0000000000000000",
    "0000102030405060708090A0B0C0D0E0F101112131415161718191A1B1C1D1E1F 0000000000000000",
    "0102030405060708090A0B0C0D0E0F101112131415161718191A1B1C1D1E1F 0000000000000000",
    concat!("00", key!(), " 0000000000000000"),
    concat!(key!(), "00", " 0000000000000000"),
    concat!(key!(), key!(), " 0000000000000000"),
    "000102030405060708090A0B0C0D0E0F 0000000000000000",
    "000102030405060708090A0B0C0D0E0F1011121314151617 0000000000000000",
    " 0000000000000000",
];
pub const KEY_LOWER_CASE: BadRows = rows![
    "f00102030405060708090A0B0C0D0E0F101112131415161718191A1B1C1D1E1F 0000000000000000",
    "000102030405060708090A0B0C0D0E0F101112131415161718191A1B1C1D1E1f 0000000000000000",
    "000102030405060708090a0b0c0d0e0f101112131415161718191a1b1c1d1e1f 0000000000000000",
    concat!(key!(), " 000000000000000a"),
    concat!(key!(), " f000000000000000"),
];
pub const KEY_NO_DIGIT: BadRows = rows![
    "G00102030405060708090A0B0C0D0E0F101112131415161718191A1B1C1D1E1F 0000000000000000",
    "/00102030405060708090A0B0C0D0E0F101112131415161718191A1B1C1D1E1F 0000000000000000",
    "000102030405060708090A0B0C0D0E0:101112131415161718191A1B1C1D1E1F 0000000000000000",
    "000102030405060708090A0B0C0D0E0@101112131415161718191A1B1C1D1E1F 0000000000000000",
    "000102030405060708090A0B0C0D0E0F101112131415161718191A1B1C1D1E1- 0000000000000000",
    "0x0102030405060708090A0B0C0D0E0F101112131415161718191A1B1C1D1E1F 0000000000000000",
    "-00102030405060708090A0B0C0D0E0F101112131415161718191A1B1C1D1E1F 0000000000000000",
    concat!(key!(), " G000000000000000"),
    concat!(key!(), " -000000000000000"),
    concat!(key!(), " 000000000000000:"),
    concat!(key!(), " -"),
];
pub const NO_FIRST: BadRows = rows![key!(), concat!(key!(), " "), concat!(key!(), "  ")];
pub const FIRST_DIGITS: BadRows = rows![
    concat!(key!(), " 0"),
    concat!(key!(), " 000000000000000"),
    concat!(key!(), " 00000000000000000"),
    concat!(key!(), " 00000000"),
    concat!(key!(), " 257"),
    concat!(key!(), " ", key!()),
    concat!(key!(), "  0000000000000000"),
    concat!(key!(), "0000000000000000"),
];
pub const AFTER_FIRST: BadRows = rows![
    concat!(key!(), " 0000000000000000 0000000000000000"),
    concat!(
        key!(),
        " 0000000000000000 8000000000000000 8000000000000000"
    ),
    concat!(key!(), " 0000000000000000 0"),
    concat!(key!(), " 0000000000000000 ", key!()),
    concat!(key!(), " 0000000000000000 "),
    concat!(key!(), " 0000000000000000\r"),
    concat!(key!(), " FFFFFFFFFFFFFFFF 0000000000000000"),
];
pub const KEY_ELSEWHERE: BadRows = &[
    concat!("3 0 ", key!(), " 0000000000000000").as_bytes(),
    concat!("3 0 ", key!(), " BF800000 0000000000000000").as_bytes(),
    concat!("3 ", key!(), " BF800000 0000000000000000").as_bytes(),
    concat!("3 0 BF800000 0000000000000000 ", key!()).as_bytes(),
    concat!(
        "3 0 BF800000 0000000000000000 ",
        key!(),
        " 0000000000000000"
    )
    .as_bytes(),
    concat!("3 BF800000 ", key!(), " 0000000000000000").as_bytes(),
    concat!("3 - BF800000 ", key!(), " 0000000000000000").as_bytes(),
    concat!("3 01 BF800000 ", key!(), " 0000000000000000").as_bytes(),
    concat!("3 0 BF80000 ", key!(), " 0000000000000000").as_bytes(),
    concat!("0 0 ", key!(), " 0000000000000000").as_bytes(),
    concat!("4 - ", key!(), " 0000000000000000").as_bytes(),
    concat!("5 0 BF800000 ", key!(), " 0000000000000000").as_bytes(),
];
