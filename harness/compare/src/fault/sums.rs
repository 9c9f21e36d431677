//! Probabilities of other sums in reports, where they are other than the computed sum's.
use oracle::{bounds, Sum, Words};
use runs::{decode, Call, Driver, ROW_NUMBERS};

/// How the distances are added up.
#[derive(Clone, Copy, Debug)]
pub enum Added {
    /// As whole numbers.
    Whole,
    /// Below and above in one chain.
    InOneChain,
    /// From the last channel on.
    FromTheLast,
}

impl Added {
    fn probability(self, low: &[f32], high: &[f32], query: &[f32]) -> f64 {
        let backwards = |of: &[f32]| -> Vec<f32> { of.iter().rev().copied().collect() };
        match self {
            Added::Whole => Sum::outside(low, high, query).of_whole(),
            Added::InOneChain => in_one_chain(low, high, query).probability(),
            Added::FromTheLast => {
                let [low, high, query] = [low, high, query].map(backwards);
                Sum::outside(&low, &high, &query).probability()
            }
        }
    }
}

/// What lies below is turned over, so that all lies above and the sum of that is of both.
fn in_one_chain(low: &[f32], high: &[f32], query: &[f32]) -> Sum {
    let [mut low, mut high, mut query] = [low, high, query].map(<[f32]>::to_vec);
    for i in 0..query.len() {
        if query[i] < low[i] {
            (low[i], high[i], query[i]) = (-high[i], -low[i], -query[i]);
        }
    }
    Sum::outside(&low, &high, &query)
}

/// The place of a probability in the answer bytes of a run, and the bits of another there.
pub fn place(added: Added, run: &[u8], words: &mut Words) -> Option<(usize, u64)> {
    let run = decode(run)?;
    let mut driver = Driver::make(&run.making).ok()?;
    let mut others = vec![];
    for span in run.spans() {
        let Some(call) = span.call else { continue };
        let answer = driver.call(call);
        let (Call::Report { coordinates, .. }, 0) = (call, answer[0]) else {
            continue;
        };
        let query: Vec<f32> = coordinates.iter().map(|x| f32::from_bits(*x)).collect();
        for row in 1..answer[1] as usize {
            let at = 2 + ROW_NUMBERS * row;
            let (low, high) = bounds(driver.tree(), driver.table(), answer[at] as usize);
            let bits = added.probability(&low, &high, &query).to_bits();
            if [bits as u32, (bits >> 32) as u32] != answer[at + 3..at + 5] {
                others.push((span.answer.start + 4 * (at + 3), bits));
            }
        }
    }
    match others.is_empty() {
        true => None,
        false => Some(words.one_of(&others)),
    }
}
