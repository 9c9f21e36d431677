//! Walk reports.
use super::{refuse, Driver};
use crate::layout::ROW_NUMBERS;
use crate::refusals::*;
use oracle::{report, sums, walk_nodes, Row};

impl Driver {
    /// How many rows are written, then the numbers of each row lent; 0 beyond those written.
    pub(super) fn report(&mut self, lent: u32, coordinates: &[u32]) -> Result<Vec<usize>, u32> {
        let query = self.reading(coordinates)?;
        let rows = report(self.tree(), &self.table, self.masses(), &query);
        let rows = rows.expect("the Rust refuses no report");
        // on an empty tree the Rust gives its caller's default, here no row
        assert_eq!(rows.is_empty(), self.copies.total() == 0);
        refuse(rows.is_empty(), EMPTY)?;
        refuse((lent as usize) < rows.len(), TOO_FEW_LENT)?;
        let sums = sums(self.tree(), &self.table, &query);
        self.sums.look(&rows, &sums, self.channels);
        let mut numbers = vec![rows.len()];
        numbers.extend(rows.iter().flat_map(row_numbers));
        numbers.resize(1 + ROW_NUMBERS * lent as usize, 0);
        Ok(numbers)
    }

    /// The rows that a report of this query writes.
    pub fn report_rows(&self, coordinates: &[u32]) -> usize {
        match self.reading(coordinates) {
            Ok(query) => walk_nodes(self.tree(), &query),
            Err(_) => 0,
        }
    }
}

/// Id, depth, mass, and the probability's bits, the lower half first.
fn row_numbers(row: &Row) -> [usize; ROW_NUMBERS] {
    let bits = row.probability.to_bits();
    let halves = [bits as u32, (bits >> 32) as u32];
    let [low, high] = halves.map(|half| half as usize);
    [row.id, row.depth, row.mass, low, high]
}
