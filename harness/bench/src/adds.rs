//! Adds and deletes: the tree is filled, then the oldest reading is deleted and a new one added in turn.
//! Every add is given exactly the words that its walk takes.
use crate::readings::written;
use crate::workload::{Bytes, Workload};
use crate::{Shape, SEED};
use oracle::{feed, walk_nodes, BareTree, Table, Tree, Words};
use runs::{Call, Making};
use std::hint::black_box;
use std::time::Instant;

/// No attribute: attributes are off.
const NO_ATTRIBUTE: usize = usize::MAX;

/// A bare tree and what was done to it, as the port is told and as the Rust is.
pub struct Grown {
    pub bare: BareTree,
    pub table: Table,
    pub bytes: Bytes,
    /// Index, and whether it is an add.
    operations: Vec<(usize, bool)>,
    fed: Vec<u64>,
}

impl Grown {
    /// A tree without readings over a written table.
    pub fn empty(shape: &Shape, words: &mut Words) -> Self {
        let making = Making::bare(shape.channels, shape.capacity as u32, shape.share);
        let (table, bytes) = written(&making, words);
        let made = BareTree::make(shape.channels as usize, shape.capacity, shape.share);
        Grown {
            bare: made.expect("in range"),
            table,
            bytes,
            operations: vec![],
            fed: vec![],
        }
    }

    pub fn add(&mut self, index: usize, words: &mut Words) {
        let point = self.table.point(index).expect("written");
        let nodes = walk_nodes(self.bare.tree(), point);
        let mut drawn: Vec<u64> = (0..nodes).map(|_| words.word()).collect();
        let added = self.bare.add(&self.table, index, &drawn).expect("accepted");
        // none where the value is held
        drawn.truncate(added.words);
        self.fed.extend_from_slice(&drawn);
        self.operations.push((index, true));
        let call = Call::Add {
            index: index as u32,
            words: drawn,
        };
        self.bytes
            .push(&call, &[0, added.leaf as u32, added.words as u32]);
    }

    fn delete(&mut self, index: usize) {
        let leaf = self.bare.delete(&self.table, index).expect("held");
        self.operations.push((index, false));
        let call = Call::Delete {
            index: index as u32,
        };
        self.bytes.push(&call, &[0, leaf as u32]);
    }
}

pub fn adds_and_deletes(shape: &Shape, calls: usize) -> Workload {
    let mut words = Words::new(SEED);
    let mut grown = Grown::empty(shape, &mut words);
    let before = grown.bytes.clone();
    let (mut next, mut oldest) = (0, 0);
    for n in 0..calls {
        if n >= shape.capacity && (n - shape.capacity).is_multiple_of(2) {
            grown.delete(oldest);
            oldest = (oldest + 1) % Table::SIZE;
        } else {
            grown.add(next, &mut words);
            next = (next + 1) % Table::SIZE;
        }
    }
    let adds = grown.operations.iter().filter(|(_, add)| *add).count();
    Workload {
        before,
        to_a_call: grown.fed.len() as f64 / adds as f64,
        calls,
        whole: grown.bytes.clone(),
        rust: Box::new({
            let shape = *shape;
            let Grown {
                table,
                operations,
                fed,
                ..
            } = grown;
            move || of_rust(&shape, &table, &operations, &fed)
        }),
    }
}

/// The adds and deletes alone: table and making lie outside, and all words are handed over before, as a
/// slice that the adds take from in turn.
fn of_rust(shape: &Shape, table: &Table, operations: &[(usize, bool)], fed: &[u64]) -> f64 {
    let (channels, capacity) = (shape.channels as usize, shape.capacity);
    let made = Tree::new(
        channels,
        capacity,
        false,
        false,
        false,
        false,
        shape.share,
        0,
    );
    let mut tree = made.expect("in range");
    feed::set(fed);
    let start = Instant::now();
    for (index, add) in operations {
        let leaf = match add {
            true => tree.add(*index, NO_ATTRIBUTE, table),
            false => tree.delete(*index, NO_ATTRIBUTE, table),
        };
        black_box(leaf.expect("accepted"));
    }
    let seconds = start.elapsed().as_secs_f64();
    assert_eq!(feed::taken(), fed.len());
    seconds
}
