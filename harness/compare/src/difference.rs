//! A difference in words: the first call whose answer differs, both answers, and the run up to that
//! call in hexadecimal digits, for `compare --replay`.
use port::Called;
use runs::{decode, Outcome, Run};

/// Longer runs are not shown.
const MOST_SHOWN: usize = 65_536;

pub struct Difference<'a> {
    /// Which run of the seed.
    pub name: &'a str,
    pub run: &'a [u8],
    pub lent: usize,
    pub expected: &'a Outcome,
    pub called: &'a Called,
}

pub fn text(difference: &Difference) -> String {
    let Difference {
        name,
        run,
        lent,
        expected,
        called,
    } = difference;
    let mut text = format!(
        "{name}, {} bytes, {lent} answer bytes lent: {} returned, {} expected\n",
        run.len(),
        called.returned,
        expected.returned()
    );
    if let Some(harm) = &called.harm {
        text += &format!("changed and should not have: {harm}\n");
    }
    let mut end = run.len();
    let answered = called.returned.is_multiple_of(4);
    if let (true, Some(decoded), Outcome::Answered(bytes)) = (answered, decode(run), expected) {
        if let Some(answer) = first_differing(&decoded, bytes, &called.written) {
            text += &answer.text;
            end = answer.run_end;
        }
    }
    match end {
        0..=MOST_SHOWN => text + "the run up to there: " + &hex(&run[..end]),
        _ => text + "the run is too long to show; compare --only makes it again",
    }
}

struct Differing {
    text: String,
    /// Where the call ends in the run.
    run_end: usize,
}

/// The first call whose answers differ; the making is call 0.
fn first_differing(run: &Run, expected: &[u8], got: &[u8]) -> Option<Differing> {
    let mut numbered = run.spans().into_iter().enumerate();
    numbered.find_map(|(n, span)| {
        let answer = || span.answer.clone();
        let (ours, theirs) = (expected.get(answer()), got.get(answer()));
        (ours != theirs).then(|| Differing {
            text: told(&format!("call {n}, {}", span.name(run)), ours, theirs),
            run_end: span.run.end,
        })
    })
}

fn told(call: &str, expected: Option<&[u8]>, got: Option<&[u8]>) -> String {
    let (expected, got) = (numbers(expected), numbers(got));
    format!("{call}\n  expected {expected}\n  got      {got}\n")
}

/// The numbers of an answer, in hexadecimal digits.
pub fn numbers(answer: Option<&[u8]>) -> String {
    let Some(bytes) = answer else {
        return "nothing".into();
    };
    let number = |four: &[u8]| {
        let digits = four.iter().rev().map(|byte| format!("{byte:02X}"));
        digits.collect::<String>()
    };
    bytes.chunks(4).map(number).collect::<Vec<_>>().join(" ")
}

fn hex(bytes: &[u8]) -> String {
    bytes.iter().map(|byte| format!("{byte:02X}")).collect()
}
