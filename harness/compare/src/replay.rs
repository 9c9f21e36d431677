//! A run in hexadecimal digits, from standard input: each call with the Rust's and the port's
//! answer.
use crate::difference::numbers;
use crate::judge::{Answers, Plain};
use runs::{decode, digits, outcome, Outcome, MOST_LENT};

/// Shows every call, and an error if an answer differs.
pub fn run() -> Result<(), String> {
    let text = std::io::read_to_string(std::io::stdin()).map_err(|e| e.to_string())?;
    let bytes = digits::bytes(&text)?;
    let expected = outcome(&bytes, MOST_LENT);
    let lent = match &expected {
        Outcome::Answered(answers) => answers.len(),
        Outcome::Refused(_) => 0,
    };
    let called = Plain::default().call(&bytes, lent);
    show(&bytes, &expected, &called.written);
    let (ours, theirs) = (expected.returned(), called.returned);
    println!("returned: expected {ours}, got {theirs}");
    let equal = match &expected {
        Outcome::Answered(answers) => *answers == called.written,
        Outcome::Refused(_) => true,
    };
    match equal && ours == theirs && called.harm.is_none() {
        true => Ok(()),
        false => Err("the port's answers are not those of the Rust".into()),
    }
}

fn show(bytes: &[u8], expected: &Outcome, got: &[u8]) {
    let (Some(run), Outcome::Answered(answers)) = (decode(bytes), expected) else {
        return;
    };
    for span in run.spans() {
        let answer = || span.answer.clone();
        let (ours, theirs) = (answers.get(answer()), got.get(answer()));
        let mark = if ours == theirs { "" } else { " DIFFERS" };
        println!("{}{mark}", span.name(&run));
        println!(
            "  expected {}\n  got      {}",
            numbers(ours),
            numbers(theirs)
        );
    }
}
