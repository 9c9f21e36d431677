//! Document 01's copy counts: a number for each value, fed by what calls ask and answer. They read
//! nothing of the tree, so that the tree's own counting can be held against them.
use std::collections::BTreeMap;

/// A reading as the bits of its coordinates. Readings have no minus zero and no NaN, so equal bits
/// are equal readings.
pub type Value = Vec<u32>;

pub fn value(point: &[f32]) -> Value {
    point.iter().map(|x| x.to_bits()).collect()
}

/// How many copies of each value are held.
#[derive(Clone, Default)]
pub struct Copies {
    held: BTreeMap<Value, usize>,
    total: usize,
}

impl Copies {
    pub fn total(&self) -> usize {
        self.total
    }

    /// How many different values are held.
    pub fn values(&self) -> usize {
        self.held.len()
    }

    pub fn of(&self, value: &Value) -> usize {
        self.held.get(value).copied().unwrap_or(0)
    }

    pub fn up(&mut self, value: Value) {
        *self.held.entry(value).or_insert(0) += 1;
        self.total += 1;
    }

    pub fn down(&mut self, value: Value) {
        let number = self.held.get_mut(&value).expect("held");
        *number -= 1;
        if *number == 0 {
            self.held.remove(&value);
        }
        self.total -= 1;
    }
}
