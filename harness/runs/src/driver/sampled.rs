//! Arrivals of a sampled tree, and its sample.
use super::{in_table, refuse, Driver, Made};
use crate::copies::value;
use crate::refusals::*;
use oracle::SampledTree;

/// What becomes of an arrival.
const NOT_ACCEPTED: usize = 0;
const ACCEPTED: usize = 1;
const EVICTING: usize = 2;

impl Driver {
    /// What became of it, the leaf's point index and the evicted one; what there isn't is 0.
    pub(super) fn arrive(
        &mut self,
        index: u32,
        weight: u32,
        start: u64,
        words: &[u64],
    ) -> Result<Vec<usize>, u32> {
        let index = in_table(index)?;
        let arriving = value(self.table.point(index).ok_or(NEVER_WRITTEN)?);
        refuse(!is_weight(weight), WEIGHT)?;
        refuse(words.len() < self.capacity, TOO_FEW_WORDS)?;
        let weight = f32::from_bits(weight);
        let answer = sampled_mut(&mut self.made).arrive(&self.table, index, weight, start, words);
        let Some(arrived) = answer.expect("document 01 refuses nothing here") else {
            return Ok(vec![NOT_ACCEPTED, 0, 0]);
        };
        if let Some(evicted) = arrived.evicted {
            let reading = self.table.point(evicted).expect("written");
            self.copies.down(value(reading));
        }
        self.copies.up(arriving);
        self.changed();
        let what = match arrived.evicted {
            None => ACCEPTED,
            Some(_) => EVICTING,
        };
        Ok(vec![what, arrived.added.leaf, arrived.evicted.unwrap_or(0)])
    }

    /// How many arrivals are kept, then weight and index of each in the order of the Rust's heap; 0
    /// up to the capacity.
    pub(super) fn sample(&self) -> Vec<usize> {
        let heap = self.sampled().heap();
        assert_eq!(heap.len(), self.copies.total());
        let mut numbers = vec![heap.len()];
        for (weight, index) in heap {
            numbers.extend([weight.to_bits() as usize, index]);
        }
        numbers.resize(1 + 2 * self.capacity, 0);
        numbers
    }

    /// The sampled tree of a sampled run.
    pub fn sampled(&self) -> &SampledTree {
        match &self.made {
            Made::Sampled(sampled) => sampled,
            Made::Bare(_) => panic!("{NO_SAMPLE}"),
        }
    }

    /// The starting chance of the next arrival; none while the sample is full, as nothing starts then.
    pub fn chance(&self) -> Option<f64> {
        let held = self.copies.total();
        let fill = held as f64 / self.capacity as f64;
        (held < self.capacity).then(|| self.sampled().chance(fill))
    }
}

const NO_SAMPLE: &str = "arrivals and samples are out of the layout of a bare run";

fn sampled_mut(made: &mut Made) -> &mut SampledTree {
    match made {
        Made::Sampled(sampled) => sampled,
        Made::Bare(_) => panic!("{NO_SAMPLE}"),
    }
}
