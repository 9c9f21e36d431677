//! The smallest texts at the edges of the form, and at those of what a put or a making takes.
use super::Given;

const NAMES: &str = "dimensions capacity cache16\n";
const MAKING: &str = "1 4 16\n";
const OPS: &str = "op index rest\n";

/// Op rows out of form, each alone.
const ROWS: [&str; 31] = [
    "0 0 0\r",
    "0 0 0\0",
    "0  0 0",
    " 0 0 0",
    "0 0 ",
    "0\t0 0",
    "0",
    "00 0 0",
    "0 00 0",
    "0 0 01",
    "0 0 -01",
    "0 0 -0",
    "0 0 +1",
    "0 0 -",
    "0 0 --1",
    "0 -1 0",
    "-1 0 0",
    "0 0 1000000000",
    "0 1000000000 1",
    "0 0 A",
    "0 0 /",
    "0 0 :",
    "0 A 0",
    "A 0 0",
    "2 0 0",
    "2 0 ",
    "1 0 8000",
    "1 0 80000000000000000",
    "1 0 FFFFFFFFFFFFFFFG",
    "1 0 :FFFFFFFFFFFFFFF",
    "1 0 abcdefabcdefabcd",
];

/// Makings out of form.
const MAKINGS: [&str; 4] = ["1 4", "1 4 16 1", "-1 4 16", "01 4 16"];

/// Whole texts that are out of form before their first op row.
const LINES: [&str; 9] = [
    "dimensions capacity cache16\n1 4 16\nop index rest",
    "dimensions capacity cache16\n1 4 16\n",
    "dimensions capacity cache16\nop index rest\n",
    "dimensions capacity cache16\n1 4 16\n1 4 16\nop index rest\n",
    "dimensions capacity cache16 \n1 4 16\nop index rest\n",
    "Dimensions capacity cache16\n1 4 16\nop index rest\n",
    "dimensions capacity cache16\n1 4 16\nop index\n0 0 0\n",
    "dimensions capacity cache16\r\n1 4 16\r\nop index rest\r\n",
    "\u{FEFF}dimensions capacity cache16\n1 4 16\nop index rest\n",
];

/// Op rows in form.
const IN_FORM: [&str; 15] = [
    "0 0 1 2\n",
    "0 0 1 2 3 4 5 6 7 8 9 10 -11\n",
    "0 0 1048577\n",
    "0 0 999999999\n0 999999999 1\n",
    "0 0 -999999999\n0 0 -1048576\n",
    "1 0 8000000000000000 FFFFFFFFFFFFFFFF\n",
    "0 0 -8\n0 1 0\n1 0\n1 1 0000000000000000\n",
    "0 0 0\n0 1 1048576\n1 0\n1 1 8000000000000000\n",
    // values held more than once, which the masses show: docs/DIFFERENCES.md, 1.2 to 1.4
    "0 0 0\n1 0\n1 0\n",
    "0 0 0\n1 0\n1 0\n1 0\n2 0\n1 0\n",
    "0 0 0\n0 1 8\n1 0\n1 0\n1 1 8000000000000000\n",
    "0 0 0\n0 1 8\n1 0\n1 1 8000000000000000\n1 0\n",
    "0 0 0\n0 1 8\n1 0\n1 0\n1 1 8000000000000000\n2 0\n",
    "0 0 0\n0 1 8\n1 0\n1 0\n1 0\n1 0\n1 1 8000000000000000\n",
    "0 0 0\n0 1 8\n0 2 24\n1 0\n1 0\n1 1 8000000000000000\n1 2 8000000000000000 8000000000000000\n1 1\n",
];

/// How many there are: the lists, a last row without its line feed, and a refused making.
pub const SMALLS: usize = ROWS.len() + MAKINGS.len() + LINES.len() + IN_FORM.len() + 2;

/// All of them, always the same.
pub fn smalls() -> Vec<Given> {
    let head = format!("{NAMES}{MAKING}{OPS}");
    let mut all = Vec::with_capacity(SMALLS);
    all.extend(ROWS.map(|row| Given::bad("small, a bad row", format!("{head}{row}\n"), 1)));
    all.push(Given::bad(
        "small, a bad row",
        format!("{head}0 0 0\n1 0"),
        2,
    ));
    let made = |row| format!("{NAMES}{row}\n{OPS}");
    all.extend(MAKINGS.map(|row| Given::bad("small, a bad making", made(row), 0)));
    all.extend(LINES.map(|text| Given::bad("small, bad lines", text, 0)));
    let in_form = |text: String| Given::untold("small, in form", text);
    all.extend(IN_FORM.map(|rows| in_form(format!("{head}{rows}"))));
    all.push(in_form(format!("{NAMES}1 2 999999999\n{OPS}1 0\n")));
    all
}
