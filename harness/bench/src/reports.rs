//! Reports on a full tree, of queries from the full range. The Rust's visitor pushes its rows into a vector
//! that has room for them; the port is lent exactly the rows that it writes. What the port answers is held to rows with
//! counted masses; the Rust that is timed shows its own.
use crate::adds::Grown;
use crate::readings::{bits, reading};
use crate::workload::Workload;
use crate::{Shape, SEED};
use oracle::rcflib::samplerplustree::nodeview::SmallNodeView;
use oracle::rcflib::samplerplustree::randomcuttree::Traversable;
use oracle::rcflib::visitor::visitor::{Visitor, VisitorInfo};
use oracle::{report, Masses, Result, Row, Table, Tree, Words};
use runs::Call;
use std::cell::Cell;
use std::hint::black_box;
use std::time::Instant;

/// No walk has more nodes.
const MOST_ROWS: usize = 256;

thread_local! {
    /// The vector while no visitor has it.
    static ROOM: Cell<Vec<Row>> = const { Cell::new(Vec::new()) };
}

/// A visitor that never converges, wants no shadow box and pushes what it is shown.
struct Pushing(Vec<Row>);

impl Pushing {
    fn make(_tree_mass: usize, _parameters: &[usize], _info: &VisitorInfo) -> Self {
        let mut rows = ROOM.take();
        rows.clear();
        Pushing(rows)
    }

    #[inline]
    fn push(&mut self, view: &SmallNodeView) -> Result<()> {
        self.0.push(Row::shown(view));
        Ok(())
    }
}

impl Drop for Pushing {
    fn drop(&mut self) {
        ROOM.set(std::mem::take(&mut self.0));
    }
}

impl Visitor<SmallNodeView, usize> for Pushing {
    fn accept(&mut self, _: &[f32], _: &VisitorInfo, view: &SmallNodeView) -> Result<()> {
        self.push(view)
    }
    fn accept_leaf(&mut self, _: &[f32], _: &VisitorInfo, view: &SmallNodeView) -> Result<()> {
        self.push(view)
    }
    fn is_converged(&self) -> Result<bool> {
        Ok(false)
    }
    fn result(&self, _: &VisitorInfo) -> Result<usize> {
        Ok(self.0.len())
    }
    fn use_shadow_box(&self) -> bool {
        false
    }
}

pub fn reports(shape: &Shape, calls: usize) -> Workload {
    let mut words = Words::new(SEED);
    let mut grown = Grown::empty(shape, &mut words);
    for index in 0..shape.capacity {
        grown.add(index, &mut words);
    }
    let before = grown.bytes.clone();
    let (tree, table) = (grown.bare.tree(), &grown.table);
    let masses = Masses::of(tree);
    let mut queries = Vec::new();
    let mut rows = 0;
    for _ in 0..calls {
        let query = reading(shape.channels, &mut words);
        let expected = report(tree, table, &masses, &query).expect("a report");
        rows += expected.len();
        let call = Call::Report {
            rows: expected.len() as u32,
            coordinates: bits(&query),
        };
        grown.bytes.push(&call, &answer(&expected));
        queries.push(query);
    }
    Workload {
        before,
        calls,
        to_a_call: rows as f64 / calls as f64,
        whole: grown.bytes.clone(),
        rust: Box::new(move || of_rust(grown.bare.tree(), &grown.table, &queries, rows)),
    }
}

fn answer(rows: &[Row]) -> Vec<u32> {
    let mut numbers = vec![0, rows.len() as u32];
    for row in rows {
        let bits = row.probability.to_bits();
        numbers.extend([row.id, row.depth, row.mass].map(|number| number as u32));
        numbers.extend([bits as u32, (bits >> 32) as u32]);
    }
    numbers
}

/// The reports alone.
fn of_rust(tree: &Tree, table: &Table, queries: &[Vec<f32>], rows: usize) -> f64 {
    ROOM.set(Vec::with_capacity(MOST_ROWS));
    let info = VisitorInfo::default();
    let mut shown = 0;
    let start = Instant::now();
    for query in queries {
        let traversed = Traversable::<SmallNodeView, Pushing, usize, u64, u64>::traverse(
            tree,
            query,
            &[],
            Pushing::make,
            &info,
            table,
            &0,
        );
        shown += black_box(traversed).expect("a report");
    }
    let seconds = start.elapsed().as_secs_f64();
    assert_eq!(shown, rows);
    seconds
}
