//! Byte runs: what is written is read back, both readings of docs/LAYOUT.md agree, document 01's
//! list gets document 01's answers and the page's worked runs the page's, and each run's answers are
//! what document 01 says (`replayed`).
use crate::replayed::replay;
use oracle::Words;
use runs::damaged::{damage, damage_whole};
use runs::generate::{self, Room, Widths, Written};
use runs::{answers, bytes_of, check, decode, examples, outcome, page, Answer, Call, Checked};
use runs::{Outcome, Sums, MOST_LENT};

const SEED: u64 = 0x00C0_FFEE_0000_0003;
/// Of the runs' report rows so many have a computed sum that is not the whole-number sum, and so many at 9 channels.
const ROUNDED: usize = 500;
const ROUNDED_AT_NINE: usize = 40;

/// Looks at document 01's runs, at this many drawn ones and as many damaged ones, and answers how many
/// calls they have. Of four drawn ones one is bare, one bare with reports, and two are sampled.
pub fn run(runs: usize) -> usize {
    list_of_three_adds();
    let mut all = [
        examples::bare(),
        examples::reported(),
        examples::sampled(),
        examples::wide(),
    ]
    .concat();
    let mut words = Words::new(SEED);
    for n in 0..runs {
        let size = 1_000 << (n / 4 % 6);
        let room = Room {
            run: size,
            answers: size,
        };
        let drawn = [
            generate::run,
            generate::reported,
            generate::sampled,
            generate::sampled,
        ][n % 4];
        let written = drawn(&mut words, room, Widths::All);
        both_agree(&damage(&written.run, &mut words));
        both_agree(&damage_whole(&written.run, &mut words));
        all.push(written);
    }
    let mut sums = Sums::default();
    for written in &all {
        read_back(written);
        replay(written);
        sums.add(&written.sums);
    }
    sums.all_right().unwrap_or_else(|why| panic!("{why}"));
    assert!(
        sums.rounded >= ROUNDED && sums.rounded_at_nine >= ROUNDED_AT_NINE,
        "{sums:?}"
    );
    all.iter().map(|written| written.run.calls.len()).sum()
}

/// The worked runs of docs/LAYOUT.md get the answers that the page shows; answers how many calls of
/// `sicklephlox_run` those are. A page without one is an error.
pub fn worked_runs() -> usize {
    assert!(page::read("# The byte run\n").is_err());
    let all = page::shown().unwrap_or_else(|why| panic!("{why}"));
    for shown in &all {
        assert_eq!(outcome(&shown.run, shown.lent), shown.outcome);
        both_agree(&shown.run);
    }
    all.len()
}

/// Document 01's list and its printed tree: branches 0 and 1, leaves 4, 6 and 5.
fn list_of_three_adds() {
    let Written { run, answers, .. } = examples::bare().swap_remove(0);
    let answer = |call: &Call| -> &Answer {
        let place = run.calls.iter().position(|c| c == call);
        &answers[1 + place.expect("a call of the run")]
    };
    let adds = run.calls.iter().filter(|c| matches!(c, Call::Add { .. }));
    let added: Vec<&Answer> = adds.map(answer).collect();
    assert_eq!(added, [&[0, 0, 0], &[0, 1, 1], &[0, 2, 2]]);
    let branch = |id| answer(&Call::Branch { id });
    assert_eq!(*branch(0), [0, 0, 0x4080_0000, 1, 5, 3]);
    assert_eq!(*branch(1), [0, 0, 0x3F80_0000, 4, 6, 2]);
    assert_eq!(*branch(2), [16, 0, 0, 0, 0, 0]);
    for id in 0..7 {
        let leaf = id >= 4;
        let copies = if leaf { [0, 1] } else { [16, 0] };
        assert_eq!(*answer(&Call::Copies { id }), copies);
    }
    let around = |id| answer(&Call::Box { id });
    assert_eq!(*around(0), [0, 0, 8.0f32.to_bits()]);
    assert_eq!(*around(1), [0, 0, 2.0f32.to_bits()]);
    assert_eq!(*around(2), [16, 0, 0]);
}

fn read_back(written: &Written) {
    let bytes = written.run.encode();
    assert_eq!(bytes.len(), written.run.run_bytes());
    assert_eq!(decode(&bytes).as_ref(), Some(&written.run));
    assert_eq!(answers(&written.run), written.answers);
    let needs = bytes_of(&written.answers).len();
    assert_eq!(check(&bytes), Checked::Needs(needs));
    assert_eq!(outcome(&bytes, needs - 1), Outcome::Refused(15));
}

/// `decode` and `check` agree on bytes that may be a run or not.
fn both_agree(bytes: &[u8]) {
    match (check(bytes), outcome(bytes, MOST_LENT)) {
        (Checked::OutOfLayout, Outcome::Refused(17)) => {}
        (Checked::Needs(needs), Outcome::Answered(written)) => assert_eq!(needs, written.len()),
        (Checked::Needs(needs), Outcome::Refused(15)) => assert!(needs > MOST_LENT),
        (checked, outcome) => panic!("{checked:?} but {outcome:?}"),
    }
}
