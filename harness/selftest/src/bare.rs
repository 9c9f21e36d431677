//! Random runs of bare trees.
use crate::model::{
    count_down, count_up, form, form_after_add, form_after_delete, value_at, Counts, Setting,
    READINGS,
};
use oracle::{feed, nodes, BareTree, Node, Table, Words};

const SEED: u64 = 0x00C0_FFEE_0000_0001;

/// Runs this many trees and answers how many adds and deletes were made.
pub fn run(runs: usize) -> usize {
    let mut words = Words::new(SEED);
    (0..runs)
        .map(|_| Run::start(&mut words).calls(&mut words))
        .sum()
}

struct Run {
    setting: Setting,
    table: Table,
    bare: BareTree,
    counts: Counts,
}

impl Run {
    fn start(words: &mut Words) -> Self {
        let setting = Setting::draw(words);
        let table = setting.table(words);
        let bare = BareTree::make(setting.channels, setting.capacity, setting.share).unwrap();
        Run {
            setting,
            table,
            bare,
            counts: Counts::new(),
        }
    }

    fn calls(&mut self, words: &mut Words) -> usize {
        let calls = 20 + words.below(80);
        let adds_of_eight = words.one_of(&[3, 4, 5, 6]);
        for _ in 0..calls {
            let index = words.below(READINGS);
            if words.below(8) < adds_of_eight {
                self.add(index, words);
            } else {
                self.delete(index, words);
            }
            let tree = self.bare.tree();
            self.setting.check(tree, &self.table, &self.counts, words);
            self.put(words);
        }
        calls
    }

    fn add(&mut self, index: usize, words: &mut Words) {
        let added = value_at(&self.table, index);
        let fed = self.setting.words(words);
        let held = self.counts.contains_key(&added);
        if !held && self.counts.len() == self.setting.capacity {
            return self.add_to_full(index, &fed);
        }
        let capacity = self.setting.capacity;
        let (expected, taken) =
            form_after_add(self.bare.tree(), &self.table, index, capacity, &fed);
        let answer = self.bare.add(&self.table, index, &fed).unwrap();
        assert_eq!(answer.words, taken);
        assert!(taken <= self.counts.len());
        assert!(held || answer.leaf == index);
        assert_eq!(value_at(&self.table, answer.leaf), added);
        assert_eq!(form(self.bare.tree(), &self.table), expected);
        count_up(&mut self.counts, added);
    }

    /// The port refuses this with 10; the Rust gives an error, here on a copy.
    fn add_to_full(&self, index: usize, fed: &[u64]) {
        let mut copy = self.bare.clone();
        let error = copy.add(&self.table, index, fed).unwrap_err();
        assert_eq!(
            error.to_string(),
            "no more indices left in interval manager"
        );
    }

    fn delete(&mut self, index: usize, words: &mut Words) {
        // most deletes hit a value that is held, through any index of that value
        let index = if words.once_in(4) {
            index
        } else {
            self.some_held(words).unwrap_or(index)
        };
        let deleted = value_at(&self.table, index);
        let Some(&copies) = self.counts.get(&deleted) else {
            return self.delete_not_held(index);
        };
        feed::set(&[]);
        let expected = form_after_delete(self.bare.tree(), &self.table, index, copies);
        let leaf = self.bare.delete(&self.table, index).unwrap();
        assert_eq!(value_at(&self.table, leaf), deleted);
        assert_eq!(form(self.bare.tree(), &self.table), expected);
        count_down(&mut self.counts, deleted);
    }

    fn some_held(&self, words: &mut Words) -> Option<usize> {
        let held: Vec<usize> = (0..READINGS)
            .filter(|&index| self.counts.contains_key(&value_at(&self.table, index)))
            .collect();
        (!held.is_empty()).then(|| words.one_of(&held))
    }

    /// The port refuses this with 12 or 13; the Rust gives an error, here on a copy.
    fn delete_not_held(&self, index: usize) {
        let mut copy = self.bare.clone();
        let error = copy.delete(&self.table, index).unwrap_err().to_string();
        let empty = self.counts.is_empty();
        let expected = if empty {
            " deleting from an empty tree"
        } else {
            " deleting wrong node "
        };
        assert_eq!(error, expected);
    }

    /// Writes an index again, unless it is a leaf.
    fn put(&mut self, words: &mut Words) {
        let index = words.below(READINGS);
        let is_leaf = |node: &Node| matches!(node, Node::Leaf { point, .. } if *point == index);
        if !nodes(self.bare.tree(), &self.table).iter().any(is_leaf) {
            self.table.put(index, &self.setting.reading(words));
        }
    }
}
