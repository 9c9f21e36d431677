//! What the port's byte run says of an archive's calls: their answers, the sample and the tree.
use archives::asked::{self, Asked};
use archives::Outcome;
use port::Lending;

/// The run that asks for it; none where an archive has no making.
pub fn asked(outcome: &Outcome) -> Option<Asked> {
    match outcome {
        Outcome::NoMaking => None,
        Outcome::Unmade { making, .. } => Some(asked::making(*making)),
        Outcome::Grown(grown) => Some(asked::grown(grown)),
    }
}

/// The answer bytes of the port, or what is wrong with the call.
pub fn answers(asked: &Asked, turn: usize) -> Result<Vec<u8>, String> {
    let needed = runs::needed(&asked.run);
    let mut lending = Lending::new(&asked.run.encode(), needed, turn);
    lending.call();
    let called = lending.called();
    match called.harm {
        Some(harm) => Err(format!("changed: {harm}")),
        None if called.returned != needed => Err(format!("returned {}", called.returned)),
        None => Ok(called.written),
    }
}

/// An error where these answer bytes say something else than is expected.
pub fn hold(asked: &Asked, answers: &[u8], expected: &[u8]) -> Result<(), String> {
    match asked.told(answers) {
        None => Err("its answers are none of the run's".into()),
        Some(told) if told == expected => Ok(()),
        Some(told) => {
            let same = |(a, b): &(&[u8], &[u8])| a == b;
            let lines = |bytes| <[u8]>::split_inclusive(bytes, |byte| *byte == b'\n');
            let both = lines(expected).zip(lines(&told));
            let line = 1 + both.take_while(same).count();
            Err(format!("line {line} would be another by its answers"))
        }
    }
}
