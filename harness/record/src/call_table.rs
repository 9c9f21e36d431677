//! The calls of recorded runs and their answers, counted by kind and refusal.
use crate::page::grouped;
use crate::runs::Entry;
use runs::{decode, Call, Outcome, Span};
use std::collections::BTreeMap;

/// The kinds and their names, in the order of a table's rows.
const NAMES: [(u32, &str); 11] = [
    (1, "make"),
    (2, "make a sampled tree"),
    (3, "put"),
    (4, "add"),
    (5, "delete"),
    (6, "arrival"),
    (7, "report"),
    (8, "copies"),
    (9, "branch"),
    (10, "box"),
    (11, "the sample"),
];

/// How often a kind of making or call was answered with each refusal, 0 for none.
pub struct Table(BTreeMap<(u32, u32), usize>);

/// A making or a call of an entry, and the numbers of its answer.
pub struct Answered {
    pub kind: u32,
    pub capacity: u32,
    pub call: Option<Call>,
    pub numbers: Vec<u32>,
}

/// The making and the calls of an entry that are answered.
pub fn answered(entry: &Entry) -> Vec<Answered> {
    let (Some(run), Outcome::Answered(bytes)) = (decode(&entry.run), &entry.outcome) else {
        return vec![];
    };
    let number = |four: &[u8]| u32::from_le_bytes(four.try_into().expect("four bytes"));
    let answer = |span: &Span| {
        // a refused making leaves its calls unanswered
        let bytes = bytes.get(span.answer.clone())?;
        Some(Answered {
            kind: span.call.map_or(run.making.kind(), Call::kind),
            capacity: run.making.capacity,
            call: span.call.cloned(),
            numbers: bytes.chunks(4).map(number).collect(),
        })
    };
    run.spans().iter().map_while(answer).collect()
}

impl Table {
    pub fn of(entries: &[Entry]) -> Self {
        let mut table = BTreeMap::new();
        for answer in entries.iter().flat_map(answered) {
            *table.entry((answer.kind, answer.numbers[0])).or_insert(0) += 1;
        }
        Table(table)
    }

    fn count(&self, of: impl Fn(u32, u32) -> bool) -> usize {
        let these = self
            .0
            .iter()
            .filter(|((kind, refusal), _)| of(*kind, *refusal));
        these.map(|(_, n)| n).sum()
    }

    /// The calls after accepted makings.
    pub fn calls(&self) -> usize {
        self.count(|kind, _| kind > 2)
    }

    pub fn refused_makings(&self) -> usize {
        self.count(|kind, refusal| kind <= 2 && refusal > 0)
    }

    /// A row for each kind that there is: how many, how many accepted, and the refusals.
    pub fn rows(&self) -> String {
        let mut text = String::new();
        for (kind, name) in NAMES {
            let all = self.count(|k, _| k == kind);
            if all == 0 {
                continue;
            }
            let accepted = self.count(|k, refusal| k == kind && refusal == 0);
            let of = self.0.iter().filter(|((k, _), _)| *k == kind);
            let refused: Vec<String> = of
                .filter(|((_, refusal), _)| *refusal > 0)
                .map(|((_, refusal), n)| format!("{refusal}: {}", grouped(*n)))
                .collect();
            let (all, accepted) = (grouped(all), grouped(accepted));
            let refused = refused.join(", ");
            text += &format!("| {kind} | {name} | {all} | {accepted} | {refused} |\n");
        }
        text
    }
}
