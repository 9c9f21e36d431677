//! Random runs of sampled trees.
use crate::kept::starts;
use crate::model::{count_down, count_up, form, value_at, Counts, Setting, READINGS};
use oracle::{Arrived, BareTree, SampledTree, Table, Words};

const SEED: u64 = 0x00C0_FFEE_0000_0002;

/// Runs this many trees and answers how many arrivals came.
pub fn run(runs: usize) -> usize {
    let mut words = Words::new(SEED);
    (0..runs)
        .map(|_| Run::start(&mut words).calls(&mut words))
        .sum()
}

struct Run {
    setting: Setting,
    initial: f64,
    table: Table,
    sampled: SampledTree,
    counts: Counts,
}

impl Run {
    fn start(words: &mut Words) -> Self {
        let setting = Setting::draw(words);
        let initial = words.one_of(&[0.0, 0.0625, 1.0 / 3.0, 0.5, 1.0, 1.0, 1.0]);
        let table = setting.table(words);
        let Setting {
            channels,
            capacity,
            share,
            ..
        } = setting;
        let sampled = SampledTree::make(channels, capacity, share, initial).unwrap();
        Run {
            setting,
            initial,
            table,
            sampled,
            counts: Counts::new(),
        }
    }

    fn calls(&mut self, words: &mut Words) -> usize {
        let calls = 20 + words.below(80);
        let weights = words.one_of(&[3, 9, 1000]);
        for _ in 0..calls {
            let weight = words.between(-weights, 0) as f32 / 4.0;
            self.arrive(words.below(READINGS), weight, words);
            let tree = self.sampled.tree();
            self.setting.check(tree, &self.table, &self.counts, words);
            self.check_sample();
        }
        calls
    }

    fn arrive(&mut self, index: usize, weight: f32, words: &mut Words) {
        let fed = self.setting.words(words);
        let start = words.word();
        let heap = self.sampled.heap();
        let starts = starts(heap.len(), self.setting.capacity, self.initial, start);
        let top = heap.first().copied();
        let accepted = starts || weight < top.expect("the first arrival starts").0;
        let before = self.sampled.clone();
        let answer = self
            .sampled
            .arrive(&self.table, index, weight, start, &fed)
            .unwrap();
        assert_eq!(answer.is_some(), accepted);
        let Some(arrived) = answer else {
            let trees = [&before, &self.sampled].map(|s| form(s.tree(), &self.table));
            assert_eq!(trees[0], trees[1]);
            return;
        };
        let evicted = top.filter(|_| !starts).map(|(_, index)| index);
        assert_eq!(arrived.evicted, evicted);
        self.check_as_two(&before, index, &fed, arrived);
        if let Some(evicted) = evicted {
            count_down(&mut self.counts, value_at(&self.table, evicted));
        }
        count_up(&mut self.counts, value_at(&self.table, index));
    }

    /// An accepted arrival leaves the tree that a delete of the evicted index, if any, and then an
    /// add of its own leave, and takes that add's words.
    fn check_as_two(&self, before: &SampledTree, index: usize, fed: &[u64], arrived: Arrived) {
        let mut alone = BareTree::from(before.tree().clone());
        if let Some(evicted) = arrived.evicted {
            assert_eq!(alone.delete(&self.table, evicted), Ok(evicted));
        }
        assert_eq!(alone.add(&self.table, index, fed), Ok(arrived.added));
        let trees = [alone.tree(), self.sampled.tree()].map(|t| form(t, &self.table));
        assert_eq!(trees[0], trees[1]);
    }

    /// The sample holds what the tree holds, the largest weight on top.
    fn check_sample(&self) {
        let heap = self.sampled.heap();
        let mut counts = Counts::new();
        for &(weight, index) in &heap {
            assert!(weight <= heap[0].0);
            count_up(&mut counts, value_at(&self.table, index));
        }
        assert_eq!(counts, self.counts);
    }
}
