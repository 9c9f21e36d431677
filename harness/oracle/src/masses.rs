//! Masses as request A.2 has them, counted over the leaves of the Rust's tree: a leaf's is its copies, a branch's the sum of its
//! sides'. Leaves are reached through the Rust's own children, and their copies are the Rust's. Its own masses, which leave a copy
//! out where a leaf has more than one, and its `tree_mass` are not looked at.
use crate::{ids, Row, Tree};
use rcflib::samplerplustree::nodestore::BasicStore;

/// The mass of each node of a tree.
pub struct Masses {
    /// By id; 0 where the tree has no such node.
    by_id: Vec<usize>,
    total: usize,
}

impl Masses {
    /// One pass over the tree. From the end of the printed order on, both sides of a branch come before it.
    pub fn of(tree: &Tree) -> Self {
        let store = tree.oracle_store();
        let ids = ids(tree);
        let mut by_id = vec![0; ids.iter().max().map_or(0, |id| id + 1)];
        for &id in ids.iter().rev() {
            by_id[id] = if store.is_leaf(id) {
                store.oracle_copies(store.leaf_point_index(id).expect("a leaf"))
            } else {
                by_id[store.left_index(id)] + by_id[store.right_index(id)]
            };
        }
        let total = ids.first().map_or(0, |root| by_id[*root]);
        Masses { by_id, total }
    }

    /// The mass of a node that is in the tree.
    pub fn of_node(&self, id: usize) -> usize {
        let mass = self.by_id.get(id).copied().unwrap_or(0);
        assert!(mass > 0, "the tree has no node {id}");
        mass
    }

    /// The root's mass: all copies held.
    pub fn total(&self) -> usize {
        self.total
    }

    /// The rows of a report with the counted masses in place of the Rust's.
    pub fn in_rows(&self, rows: Vec<Row>) -> Vec<Row> {
        let counted = |row: Row| Row {
            mass: self.of_node(row.id),
            ..row
        };
        rows.into_iter().map(counted).collect()
    }
}

/// The Rust's own mass of a node in the tree, to show where it differs. No answer of the port is held to it.
pub fn rust_mass(tree: &Tree, id: usize) -> usize {
    tree.oracle_store().mass(id)
}
