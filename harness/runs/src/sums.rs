//! What reports show of the sums in them: how many are rounded, how far off they are, and whether each probability is that of its
//! computed sum.
use crate::generate::FEW;
use oracle::{Row, Sum};

/// Request A.7: a computed sum lies no further from the whole-number sum.
const FURTHEST: u64 = 126;

/// Counted over the rows of branches that reports write.
#[derive(Clone, Copy, Debug, Default, PartialEq)]
pub struct Sums {
    /// Rows whose computed sum is not the whole-number sum.
    pub rounded: usize,
    /// Those of trees of 9 channels, the fewest that have any.
    pub rounded_at_nine: usize,
    /// How far off the furthest computed sum is.
    pub furthest: u64,
    /// Rows whose probability is not that of the computed sum, or whose computed sum is further off than the request allows.
    wrong: usize,
}

impl Sums {
    /// Takes in a report. The leaf's row has no sum.
    pub(crate) fn look(&mut self, rows: &[Row], sums: &[Sum], channels: usize) {
        let few = channels <= FEW as usize;
        for (row, sum) in rows.iter().zip(sums).skip(1) {
            let off = sum.off();
            self.rounded += usize::from(off > 0);
            self.rounded_at_nine += usize::from(off > 0 && channels == FEW as usize + 1);
            self.furthest = self.furthest.max(off);
            let near = off <= if few { 0 } else { FURTHEST };
            let same = row.probability.to_bits() == sum.probability().to_bits();
            self.wrong += usize::from(!near || !same);
        }
    }

    pub fn add(&mut self, other: &Sums) {
        self.rounded += other.rounded;
        self.rounded_at_nine += other.rounded_at_nine;
        self.furthest = self.furthest.max(other.furthest);
        self.wrong += other.wrong;
    }

    /// An error if a row was not as request A.7 has it.
    pub fn all_right(&self) -> Result<(), String> {
        match self.wrong {
            0 => Ok(()),
            wrong => Err(format!(
                "{wrong} report rows of the Rust are not as A.7 says"
            )),
        }
    }
}
