//! Texts of `treelist`: read as the generator knows them to be, each example of form, document 01's
//! own text printed, and every refusal met.
use crate::as_made;
use std::collections::BTreeSet;
use texts::generate::{document, nth};
use texts::{form, outcome, printed, Outcome};

const SEED: u64 = 7;
const PRINTED: &str = "\
id dimension cut left right mass
0 0 40800000 1 5 3
1 0 3F800000 4 6 2
4 - - - - 1
6 - - - - 1
5 - - - - 1
";
const BEFORE: &str = "dimensions capacity cache16\n1 4 16\nop index rest\n";

/// Op rows, and how many they are or the first bad one.
const ROWS: [(&str, Result<usize, usize>); 9] = [
    ("", Ok(0)),
    ("0 0 0\n1 0\n2 0\n", Ok(3)),
    ("0 0\n0 0 1 2 3 4 5 6 7 8 9 10 -11\n", Ok(2)),
    ("1 0 8000000000000000 FFFFFFFFFFFFFFFF\n", Ok(1)),
    ("0 0 999999999\n0 999999999 -999999999\n", Ok(2)),
    ("0 0 0\n\n", Err(2)),
    ("\n", Err(1)),
    ("0 0 0\n3 0\n\n", Err(2)),
    ("1 0 800000000000000\n", Err(1)),
];

/// Reads `count` generated texts; the answer is how many of them are in form.
pub fn run(count: usize) -> usize {
    examples();
    let mut met = BTreeSet::new();
    let mut in_form = 0;
    for n in 0..count {
        let given = nth(SEED, n);
        let read = form::read(&given.bytes);
        in_form += usize::from(as_made::in_form(&format!("text {n}"), &given, read));
        met.extend(outcome(&given.bytes).refusals());
    }
    let all = [1, 2, 3, 5, 6, 7, 8, 9, 10, 11, 12, 13, 17];
    assert_eq!(met, BTreeSet::from(all), "the refusals that texts meet");
    in_form
}

fn examples() {
    assert_eq!(printed(&document().bytes), PRINTED.as_bytes());
    for (rows, expected) in ROWS {
        let read = form::read(format!("{BEFORE}{rows}").as_bytes());
        assert_eq!(read.map(|text| text.rows.len()), expected, "{rows:?}");
    }
    let names = "id dimension cut left right mass\n";
    let refused = printed(format!("{BEFORE}0 0 1 2\n1 0\n2 1024\n").as_bytes());
    let lines = format!("refused 6 1\nrefused 9 2\nrefused 5 3\n{names}");
    assert_eq!(refused, lines.as_bytes());
    let unmade = BEFORE.replace("1 4 16", "1 4 17");
    assert_eq!(outcome(unmade.as_bytes()), Outcome::Unmade(3));
    assert_eq!(printed(b""), b"refused 17 0\n");
}
