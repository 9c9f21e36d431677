//! The smallest archives at the edges of the form, and at those of what a row or a making takes.
use super::Given;

const NAMES: &str = "dimensions capacity cache16 initial16\n";
const OPS: &str = "op index rest\n";
const HEAD: &str = "dimensions capacity cache16 initial16\n1 2 16 16\nop index rest\n";

/// Whole texts that are out of form before their first op row.
const LINES: [&str; 16] = [
    "",
    "\n",
    "\n\n\n",
    "dimensions capacity cache16 initial16",
    "dimensions capacity cache16 initial16\n",
    "dimensions capacity cache16 initial16\n1 2 16 16",
    "dimensions capacity cache16 initial16\n1 2 16 16\n",
    "dimensions capacity cache16 initial16\n1 2 16 16\nop index rest",
    "dimensions capacity cache16\n1 2 16\nop index rest\n",
    "dimensions capacity cache16 initial16\n1 2 16\nop index rest\n",
    "dimensions capacity cache16\n1 2 16 16\nop index rest\n",
    "dimensions capacity cache16 initial16\nop index rest\n",
    "dimensions capacity cache16 initial16 \n1 2 16 16\nop index rest\n",
    "dimensions capacity cache16 initial16\r\n1 2 16 16\r\nop index rest\r\n",
    "\u{FEFF}dimensions capacity cache16 initial16\n1 2 16 16\nop index rest\n",
    // a making that would be refused; but the third line is looked at before
    "dimensions capacity cache16 initial16\n33 1 17 17\nop index\n",
];

/// Op rows in form, and the first bad one behind them if there is one.
const ROWS: [(&str, Option<usize>); 35] = [
    ("", None),
    ("4 -\n4 - 0\n4 - 0 0\n4 - 1048577\n", None),
    (
        "0 0 1048577\n0 0 -1048577\n0 0\n0 1024 0\n0 999999999 999999999\n",
        None,
    ),
    (
        "0 0 1048576\n0 1 -1048576\n3 0 00000000 0000000000000000\n",
        None,
    ),
    (
        "3 1 BF800000 0000000000000000 8000000000000000 8000000000000000\n",
        None,
    ),
    ("3 1024 7FC00000 0000000000000000\n", None),
    (
        "0 0 0\n3 0 80000000 0000000000000000\n3 0 FF800000 0000000000000000\n",
        None,
    ),
    (
        "0 0 0\n3 0 7F7FFFFF FFFFFFFFFFFFFFFF 0000000000000000 0000000000000000\n",
        None,
    ),
    (
        "0 0 0\n3 0 00000000 0000000000000000 0000000000000000 0000000000000000\n0 0 0\n4 - 0\n",
        None,
    ),
    // keyed rows: from the first word, up to the last, and one word too far, before all other refusals
    (
        concat!("0 0 0\n3 0 BF800000 ", key!(), " 0000000000000000\n"),
        None,
    ),
    (
        concat!("0 0 0\n3 0 BF800000 ", key!(), " 00000007FFFFFEFF\n"),
        None,
    ),
    (
        concat!("0 0 0\n3 0 BF800000 ", key!(), " 00000007FFFFFF00\n0 0 1\n"),
        None,
    ),
    (
        concat!("3 0 BF800000 ", key!(), " 0000000800000000\n4 - 0\n"),
        None,
    ),
    (
        concat!("3 1024 7FC00000 ", key!(), " FFFFFFFFFFFFFFFF\n4 - 0\n"),
        None,
    ),
    (
        concat!("3 1024 7FC00000 ", key!(), " 0000000000000000\n4 - 0\n"),
        None,
    ),
    (
        concat!("3 0 BF800000 ", key!(), " 0000000000000000\n4 - 0\n"),
        None,
    ),
    (
        concat!("0 0 0\n3 0 80000000 ", key!(), " 0000000000000000\n4 - 0\n"),
        None,
    ),
    (concat!("3 0 BF800000 ", key!(), "\n"), Some(1)),
    (concat!("3 0 BF800000 ", key!(), " 0\n"), Some(1)),
    (
        concat!("3 0 BF800000 ", key!(), "0 0000000000000000\n"),
        Some(1),
    ),
    (
        concat!("3 0 BF800000 ", key!(), " 0000000800000000 0\n"),
        Some(1),
    ),
    (
        concat!("3 0 BF800000 ", key!(), " 0000000000000000"),
        Some(1),
    ),
    ("0 0 0\n1 0\n", Some(2)),
    ("0 0 0\n2 0\n", Some(2)),
    ("0 0 0\n4 - 0\n4 0 0\n", Some(3)),
    ("4\n", Some(1)),
    ("4 \n", Some(1)),
    ("4 -0\n", Some(1)),
    ("4 - -0\n", Some(1)),
    ("4 --\n", Some(1)),
    ("0 - 0\n", Some(1)),
    ("3 - 00000000 0000000000000000\n", Some(1)),
    ("3 0\n", Some(1)),
    ("3 0 00000000\n", Some(1)),
    ("0 0 0\n4 - 0", Some(2)),
];

/// Makings refused, whatever comes after them.
const REFUSED: [&str; 4] = ["33 1 17 17", "1 1 17 17", "1 2 17 17", "1 2 16 17"];
const AFTER: [&str; 3] = ["", "0 0 0\n", "no row\n"];

/// How many there are.
pub const SMALLS: usize = LINES.len() + ROWS.len() + REFUSED.len() * AFTER.len() + 1;

/// All of them, always the same.
pub fn smalls() -> Vec<Given> {
    let mut all = Vec::with_capacity(SMALLS);
    for text in LINES {
        all.push(Given::bad("small, bad lines", text, 0));
    }
    for (rows, row) in ROWS {
        let text = format!("{HEAD}{rows}");
        all.push(match row {
            Some(row) => Given::bad("small, a bad row", text, row),
            None => Given::untold("small, in form", text),
        });
    }
    for making in REFUSED {
        let texts = AFTER.map(|rows| format!("{NAMES}{making}\n{OPS}{rows}"));
        all.extend(texts.map(|text| Given::untold("small, refused making", text)));
    }
    all.push(held_twice());
    all
}

/// Equal readings at two indices, held twice and below a branch, the first of them evicted at the end, with reports between:
/// the masses show it (docs/DIFFERENCES.md, 1.2 to 1.4).
fn held_twice() -> Given {
    let words = "0000000000000000".to_string() + &" 8000000000000000".repeat(4);
    let arrivals = [
        (0, "BF800000"),
        (1, "C0000000"),
        (2, "C0400000"),
        (2, "C0800000"),
        (2, "C0A00000"),
    ];
    let rows =
        arrivals.map(|(index, weight)| format!("3 {index} {weight} {words}\n4 - 0\n4 - 12\n"));
    let puts = "0 0 0\n0 1 0\n0 2 8\n";
    let text = format!("{NAMES}1 4 16 16\n{OPS}{puts}{}", rows.concat());
    Given::untold("small, in form", text)
}
