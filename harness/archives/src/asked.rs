//! The same calls as a byte run, with questions after them that tell sample and tree; and what must be
//! printed, told by the answer bytes of that run and nothing else.
use crate::printed::{answered, kept, End, Grown};
use oracle::Table;
use runs::{Answer, Call, Making, Run};
use std::collections::{BTreeMap, BTreeSet};
use std::fmt::Write;
use texts::{refused, OUT_OF_FORM};

/// A run that asks what an archive's calls come to.
pub struct Asked {
    pub run: Run,
    /// For each row its refusal, where it has no call. The calls of the others come first in the run.
    rows: Vec<Option<Answer>>,
    /// The row out of form that ends the archive, if one does.
    bad: Option<usize>,
}

/// The making alone, which is refused.
pub fn making(making: Making) -> Asked {
    let calls = vec![];
    let run = Run { making, calls };
    Asked {
        run,
        rows: vec![],
        bad: None,
    }
}

/// The calls of the rows; then the sample, every branch, and the leaf of every index that arrived.
pub fn grown(grown: &Grown) -> Asked {
    let bad = match grown.end {
        End::Bad(row) => Some(row),
        End::Kept { .. } => None,
    };
    let mut calls: Vec<Call> = grown.calls.iter().flatten().cloned().collect();
    if bad.is_none() {
        let capacity = grown.making.capacity;
        calls.push(Call::Sample);
        calls.extend((0..capacity - 1).map(|id| Call::Branch { id }));
        let arrived = |call: &Call| match call {
            Call::Arrival { index, .. } if (*index as usize) < Table::SIZE => Some(*index),
            _ => None,
        };
        let indices: BTreeSet<u32> = calls.iter().filter_map(arrived).collect();
        calls.extend(indices.into_iter().map(|index| Call::Copies {
            id: index + capacity,
        }));
    }
    let making = grown.making;
    let rows = grown.calls.iter().zip(&grown.answers);
    let without_call = |(call, answer): (&Option<Call>, &Answer)| match call {
        Some(_) => None,
        None => Some(answer.clone()),
    };
    Asked {
        run: Run { making, calls },
        rows: rows.map(without_call).collect(),
        bad,
    }
}

/// The refusal of a question about an id that the tree has not.
const NO_SUCH_NODE: u32 = 16;

/// A branch as its query answers it: channel, bits of the cut, left, right, mass.
type Branch = [u32; 5];

impl Asked {
    /// What must be printed, by these answer bytes; none where they are no answers of the run.
    pub fn told(&self, bytes: &[u8]) -> Option<Vec<u8>> {
        let number = |four: &[u8]| Some(u32::from_le_bytes(four.try_into().ok()?));
        let numbers: Vec<u32> = bytes.chunks(4).map(number).collect::<Option<_>>()?;
        let (made, rest) = numbers.split_first()?;
        if *made > 0 {
            return Some(refused(*made, 0).into_bytes());
        }
        let answers = self.split(rest)?;
        let mut called = self.run.calls.iter().zip(&answers);
        let mut rows = Vec::with_capacity(self.rows.len());
        for refusal in &self.rows {
            rows.push(match refusal {
                Some(refusal) => (None, refusal),
                None => called.next().map(|(call, answer)| (Some(call), answer))?,
            });
        }
        let end = match self.bad {
            Some(row) => refused(OUT_OF_FORM, row),
            None => end(called)?,
        };
        Some((answered(rows.into_iter()) + &end).into_bytes())
    }

    /// The numbers of each call's answer.
    fn split(&self, numbers: &[u32]) -> Option<Vec<Answer>> {
        let mut rest = numbers;
        let mut answers = Vec::new();
        for call in &self.run.calls {
            let (answer, after) = rest.split_at_checked(call.answer_numbers(&self.run.making))?;
            answers.push(answer.to_vec());
            rest = after;
        }
        rest.is_empty().then_some(answers)
    }
}

/// Sample and tree, by the answers to what is asked after the rows.
fn end<'a>(asked: impl Iterator<Item = (&'a Call, &'a Answer)>) -> Option<String> {
    let (mut branches, mut copies) = (BTreeMap::new(), BTreeMap::new());
    let mut of_sample = None;
    for (call, answer) in asked {
        match (call, &answer[..]) {
            (Call::Branch { id }, [0, of_branch @ ..]) => {
                branches.insert(*id, Branch::try_from(of_branch).ok()?);
            }
            (Call::Copies { id }, [0, number]) => {
                copies.insert(*id, *number);
            }
            (Call::Sample, answer) => of_sample = Some(sample(answer)?),
            (_, [NO_SUCH_NODE, rest @ ..]) if all_zero(rest) => {}
            _ => return None,
        }
    }
    Some(of_sample? + &list(&branches, &copies))
}

fn all_zero(numbers: &[u32]) -> bool {
    numbers.iter().all(|number| *number == 0)
}

/// The kept arrivals of a sample's answer.
fn sample(answer: &[u32]) -> Option<String> {
    let [0, count, places @ ..] = answer else {
        return None;
    };
    let (held, beyond) = places.split_at_checked(2 * *count as usize)?;
    let pairs = held.chunks(2).map(|two| (two[0], two[1] as usize));
    let entries: Vec<(u32, usize)> = pairs.collect();
    all_zero(beyond).then(|| kept(&entries))
}

/// The printed tree: from the one node that is no child, branch before left before right. A leaf's mass is its
/// copies.
fn list(branches: &BTreeMap<u32, Branch>, copies: &BTreeMap<u32, u32>) -> String {
    let children = |[_, _, left, right, _]: &Branch| [*left, *right];
    let below: BTreeSet<u32> = branches.values().flat_map(children).collect();
    let nodes = branches.keys().chain(copies.keys());
    let mut ahead: Vec<u32> = nodes.filter(|id| !below.contains(id)).copied().collect();
    let mut text = String::from("id dimension cut left right mass\n");
    // answers that are no tree's must not keep this from ending
    let mut left_to_print = branches.len() + copies.len();
    while let Some(id) = ahead.pop().filter(|_| left_to_print > 0) {
        left_to_print -= 1;
        let written = match (branches.get(&id), copies.get(&id)) {
            (Some([channel, cut, left, right, mass]), _) => {
                ahead.extend([*right, *left]);
                writeln!(text, "{id} {channel} {cut:08X} {left} {right} {mass}")
            }
            (None, Some(copies)) => writeln!(text, "{id} - - - - {copies}"),
            (None, None) => writeln!(text, "{id} is no node"),
        };
        written.expect("a string takes every text");
    }
    text
}
