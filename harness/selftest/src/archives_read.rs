//! Archives of `regrow`: read as the generator knows them to be, document 01's sample printed, what the answer
//! bytes of a byte run tell, and every refusal met.
use crate::as_made;
use archives::form::{self, Read};
use archives::generate::{nth, starred};
use archives::{asked, outcome, printed, Outcome};
use std::collections::BTreeSet;

const SEED: u64 = 7;
/// Longer archives are read only.
const MOST_BYTES: usize = 500_000;

/// Document 01's starred sample with the weight -2, and its reports.
const EVICTING: &str = "\
refused 12 4
leaf 0 5
leaf 1 6
row 3 1 1 3FF0000000000000
row 0 0 2 3FD5555555555555
leaf 2 evicted 0 8
row 3 1 1 3FF0000000000000
row 0 0 2 3FE0000000000000
weight index
C0000000 2
C0400000 1
id dimension cut left right mass
0 0 40C00000 4 3 2
4 - - - - 1
3 - - - - 1
";

/// With the weight -1 in its place.
const PASSED: &str = "\
refused 12 4
leaf 0 5
leaf 1 6
row 3 1 1 3FF0000000000000
row 0 0 2 3FD5555555555555
passed 8
row 3 1 1 3FF0000000000000
row 0 0 2 3FD5555555555555
weight index
BF800000 0
C0400000 1
id dimension cut left right mass
0 0 40800000 2 3 2
2 - - - - 1
3 - - - - 1
";

/// The first block of RFC 8439's appendix A.1, vector 1, as words: the key is zero.
const KEY: &str = "0000000000000000000000000000000000000000000000000000000000000000";
const WORDS: [&str; 8] = [
    "903DF1A0ADE0B876",
    "28BD8653E56A5D40",
    "1AED8DA0B819D2BD",
    "C70D778BCCEF36A8",
    "8D4857517C5941DA",
    "374AD8B83FE02477",
    "1CA11815F4B8436A",
    "8665EEB269B687C3",
];

const BEFORE: &str = "dimensions capacity cache16 initial16\n1 2 16 16\nop index rest\n";
const NAMES: &str = "weight index\nid dimension cut left right mass\n";

/// Reads `count` generated archives; the answer is how many of them are in form.
pub fn run(count: usize) -> usize {
    examples();
    keyed_rows();
    past_the_end();
    let mut met = BTreeSet::new();
    let mut in_form = 0;
    for n in 0..count {
        let given = nth(SEED, n);
        let read = form::read(&given.bytes).map_or(Err(0), Read::whole);
        in_form += usize::from(as_made::in_form(&format!("archive {n}"), &given, read));
        // the longest are for the comparison
        if given.bytes.len() > MOST_BYTES {
            continue;
        }
        let outcome = outcome(&given.bytes);
        met.extend(outcome.refusals());
        tells(&outcome, n);
    }
    let all = [1, 2, 3, 4, 5, 6, 7, 8, 9, 11, 12, 14, 17, 22];
    assert_eq!(met, BTreeSet::from(all), "the refusals that archives meet");
    in_form
}

/// The answers of the Rust to the same calls as a byte run tell what is printed.
fn tells(outcome: &Outcome, n: usize) {
    let asked = match outcome {
        Outcome::NoMaking => return,
        Outcome::Unmade { making, .. } => asked::making(*making),
        Outcome::Grown(grown) => asked::grown(grown),
    };
    let answers = runs::bytes_of(&runs::answers(&asked.run));
    assert_eq!(asked.told(&answers), Some(outcome.bytes()), "archive {n}");
}

fn examples() {
    for (given, expected) in starred().iter().zip([PASSED, EVICTING]) {
        assert_eq!(
            String::from_utf8(printed(&given.bytes)).as_deref(),
            Ok(expected)
        );
    }
    let lines = [
        ("", NAMES.to_string()),
        ("0 0 0\n1 0\n0 1 1\n", "refused 17 2\n".into()),
        ("4 - 0\n\n", "refused 12 1\nrefused 17 2\n".into()),
        ("4 - 0", "refused 17 1\n".into()),
        ("0 0\n4 -\n", format!("refused 6 1\nrefused 6 2\n{NAMES}")),
    ];
    for (rows, expected) in lines {
        assert_eq!(
            printed(format!("{BEFORE}{rows}").as_bytes()),
            expected.as_bytes()
        );
    }
    let unmade = BEFORE.replace("1 2 16 16", "1 2 16 17") + "no row";
    assert_eq!(printed(unmade.as_bytes()), b"refused 4 0\n");
    assert_eq!(printed(b""), b"refused 17 0\n");
}

/// A keyed row says what the row with its words says, of which a tree of capacity 2 wants two. Other words make another cut.
fn keyed_rows() {
    let before = format!(
        "{BEFORE}0 0 0\n0 1 1048576\n3 0 BF800000 {}\n",
        WORDS[..3].join(" ")
    );
    let mut met = BTreeSet::new();
    for first in 0..WORDS.len() - 2 {
        let by_key = format!("{before}3 1 C0400000 {KEY} {first:016X}\n");
        let words = WORDS[first..first + 3].join(" ");
        let written_out = format!("{before}3 1 C0400000 {words}\n");
        let expected = printed(written_out.as_bytes());
        assert_eq!(printed(by_key.as_bytes()), expected, "{by_key}");
        assert!(met.insert(expected), "{by_key}");
    }
}

/// 22 comes before all other refusals of an arrival.
fn past_the_end() {
    let rows = [
        ("3 1024 7FC00000", "00000007FFFFFF00", 22),
        ("3 0 BF800000", "0000000800000000", 22),
        ("3 0 BF800000", "FFFFFFFFFFFFFFFF", 22),
        ("3 1024 7FC00000", "00000007FFFFFEFF", 5),
        ("3 0 7FC00000", "00000007FFFFFEFF", 9),
    ];
    for (row, first, refusal) in rows {
        let archive = format!("{BEFORE}{row} {KEY} {first}\n");
        let expected = format!("refused {refusal} 1\n{NAMES}");
        assert_eq!(printed(archive.as_bytes()), expected.as_bytes());
    }
}
