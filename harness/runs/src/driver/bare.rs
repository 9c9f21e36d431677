//! Adds and deletes of a bare tree.
use super::{in_table, refuse, Driver, Made};
use crate::copies::value;
use crate::refusals::*;
use oracle::{walk_nodes, BareTree};
use std::fmt::{Debug, Display};

/// No walk has more nodes than this, so no add takes more words.
const MOST_WORDS: usize = 256;

impl Driver {
    /// The leaf's point index and the words taken.
    pub(super) fn add(&mut self, index: u32, words: &[u64]) -> Result<Vec<usize>, u32> {
        let index = in_table(index)?;
        let point = self.table.point(index).ok_or(NEVER_WRITTEN)?;
        let added = value(point);
        let held = self.copies.of(&added) > 0;
        refuse(self.copies.total() == MOST_COPIES, FULL)?;
        if !held && self.copies.values() == self.capacity {
            let answer = self
                .copy_of_bare()
                .add(&self.table, index, &[0; MOST_WORDS]);
            must_be(answer, "no more indices left in interval manager");
            return Err(FULL);
        }
        let takes = if held {
            0
        } else {
            walk_nodes(self.tree(), point)
        };
        refuse(words.len() < takes, TOO_FEW_WORDS)?;
        let answer = bare(&mut self.made).add(&self.table, index, words);
        let answer = answer.expect("document 01 refuses nothing here");
        assert_eq!(answer.words, takes);
        self.copies.up(added);
        self.changed();
        Ok(vec![answer.leaf, answer.words])
    }

    /// The leaf's point index.
    pub(super) fn delete(&mut self, index: u32) -> Result<Vec<usize>, u32> {
        let index = in_table(index)?;
        let deleted = value(self.table.point(index).ok_or(NEVER_WRITTEN)?);
        let refusal = match (self.copies.total(), self.copies.of(&deleted)) {
            (0, _) => Some((EMPTY, " deleting from an empty tree")),
            (_, 0) => Some((NOT_HELD, " deleting wrong node ")),
            _ => None,
        };
        if let Some((refusal, error)) = refusal {
            must_be(self.copy_of_bare().delete(&self.table, index), error);
            return Err(refusal);
        }
        let leaf = bare(&mut self.made).delete(&self.table, index);
        self.copies.down(deleted);
        self.changed();
        Ok(vec![leaf.expect("document 01 refuses nothing here")])
    }

    /// A copy of the tree, for calls that are refused.
    fn copy_of_bare(&self) -> BareTree {
        BareTree::from(self.tree().clone())
    }
}

fn bare(made: &mut Made) -> &mut BareTree {
    match made {
        Made::Bare(bare) => bare,
        Made::Sampled(_) => panic!("adds and deletes are out of the layout of a sampled run"),
    }
}

/// The Rust's own word for a refusal.
fn must_be<T: Debug, E: Display + Debug>(answer: Result<T, E>, error: &str) {
    assert_eq!(answer.unwrap_err().to_string(), error);
}
