//! What a query's distances to a box add up to, as request A.7 has it: in f32 numbers, what lies below the box and what lies above it each in
//! channel order from zero, then above + below; and beside it in whole numbers. It uses no function of the Rust's boxes and none of the
//! port's; boxes are made of the leaves below a node.
use crate::nodes::walk;
use crate::{Table, Tree};
use rcflib::samplerplustree::nodestore::BasicStore;

/// The sum for one box.
#[derive(Clone, Copy, Debug, PartialEq)]
pub struct Sum {
    /// As f32 numbers add up.
    pub computed: f32,
    /// As whole numbers do.
    pub whole: i64,
    /// The box's sides.
    sides: i64,
}

impl Sum {
    pub fn outside(low: &[f32], high: &[f32], query: &[f32]) -> Self {
        let (mut below, mut above) = (0.0f32, 0.0f32);
        let (mut whole, mut sides) = (0, 0);
        for ((low, high), x) in low.iter().zip(high).zip(query) {
            below += (low - x).max(0.0);
            above += (x - high).max(0.0);
            let [low, high, x] = [low, high, x].map(|number| *number as i64);
            whole += (low - x).max(0) + (x - high).max(0);
            sides += high - low;
        }
        Sum {
            computed: above + below,
            whole,
            sides,
        }
    }

    /// One division of f64 numbers. The sum in it is exact: all numbers are whole and below 2^53.
    pub fn probability(&self) -> f64 {
        let computed = f64::from(self.computed);
        match computed == 0.0 {
            true => 0.0,
            false => computed / (self.sides as f64 + computed),
        }
    }

    /// Document 01's quotient, of the whole-number sum.
    pub fn of_whole(&self) -> f64 {
        match self.whole {
            0 => 0.0,
            whole => whole as f64 / (self.sides + whole) as f64,
        }
    }

    /// How far the computed sum lies from the whole one.
    pub fn off(&self) -> u64 {
        self.whole.abs_diff(self.computed as i64)
    }
}

/// The sums for the boxes of a query's walk, from the leaf to the root.
pub fn sums(tree: &Tree, table: &Table, query: &[f32]) -> Vec<Sum> {
    let store = tree.oracle_store();
    let mut around = Around::default();
    let mut below = None;
    let mut sums = Vec::new();
    for id in walk(tree, query) {
        let grown_by = match below {
            None => id,
            Some(below) if store.left_index(id) == below => store.right_index(id),
            Some(_) => store.left_index(id),
        };
        around.grow(tree, table, grown_by);
        sums.push(Sum::outside(&around.low, &around.high, query));
        below = Some(id);
    }
    sums
}

/// The least box around some leaves.
#[derive(Default)]
struct Around {
    low: Vec<f32>,
    high: Vec<f32>,
}

impl Around {
    /// Takes in all leaves of a node.
    fn grow(&mut self, tree: &Tree, table: &Table, id: usize) {
        let store = tree.oracle_store();
        let mut ahead = vec![id];
        while let Some(id) = ahead.pop() {
            if !store.is_leaf(id) {
                ahead.extend([store.left_index(id), store.right_index(id)]);
                continue;
            }
            let index = store.leaf_point_index(id).expect("a leaf");
            self.take(table.point(index).expect("written"));
        }
    }

    fn take(&mut self, reading: &[f32]) {
        if self.low.is_empty() {
            self.low = reading.to_vec();
            self.high = reading.to_vec();
        }
        for (i, &x) in reading.iter().enumerate() {
            self.low[i] = self.low[i].min(x);
            self.high[i] = self.high[i].max(x);
        }
    }
}
