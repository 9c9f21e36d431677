use crate::{Masses, Table, Tree};
use rcflib::samplerplustree::nodestore::{BasicStore, BoxStore};
use std::fmt::Write;

/// A node of a tree, with everything that the port's queries answer. All is the Rust's but the mass, which
/// is counted over its leaves.
#[derive(Clone, Debug, PartialEq)]
pub enum Node {
    Leaf {
        id: usize,
        point: usize,
        copies: usize,
        mass: usize,
    },
    Branch {
        id: usize,
        dimension: usize,
        cut: f32,
        left: usize,
        right: usize,
        mass: usize,
        /// Whether the Rust keeps this branch's box.
        cached: bool,
        low: Vec<f32>,
        high: Vec<f32>,
    },
}

/// The root's id, unless the tree is empty.
fn root(tree: &Tree) -> Option<usize> {
    let id = tree.oracle_root();
    (id != tree.oracle_store().null_node()).then_some(id)
}

/// The ids in printed order: branch before left before right.
pub fn ids(tree: &Tree) -> Vec<usize> {
    let store = tree.oracle_store();
    let mut found = Vec::new();
    let mut ahead: Vec<usize> = root(tree).into_iter().collect();
    while let Some(id) = ahead.pop() {
        found.push(id);
        if !store.is_leaf(id) {
            ahead.push(store.right_index(id));
            ahead.push(store.left_index(id));
        }
    }
    found
}

/// All nodes in printed order; the first is the root.
pub fn nodes(tree: &Tree, table: &Table) -> Vec<Node> {
    let masses = Masses::of(tree);
    ids(tree)
        .into_iter()
        .map(|id| node(tree, table, &masses, id))
        .collect()
}

/// The node of an id that is in the tree, with its mass among those of the tree.
pub fn node(tree: &Tree, table: &Table, masses: &Masses, id: usize) -> Node {
    let store = tree.oracle_store();
    let mass = masses.of_node(id);
    if store.is_leaf(id) {
        let point = store.leaf_point_index(id).expect("a leaf");
        let copies = store.oracle_copies(point);
        return Node::Leaf {
            id,
            point,
            copies,
            mass,
        };
    }
    let (dimension, cut, left, right) = store.cut_and_children(id);
    let (low, high) = bounds(tree, table, id);
    Node::Branch {
        id,
        dimension,
        cut,
        left,
        right,
        mass,
        cached: id < store.oracle_cache_limit(),
        low,
        high,
    }
}

/// The ends of a node's box, the lower ones first; a leaf's are its reading.
pub fn bounds(tree: &Tree, table: &Table, id: usize) -> (Vec<f32>, Vec<f32>) {
    let store = tree.oracle_store();
    if store.is_leaf(id) {
        let point = store.leaf_point_index(id).expect("a leaf");
        let reading = table.point(point).expect("written").to_vec();
        return (reading.clone(), reading);
    }
    let around = BoxStore::<u64, u64>::bounding_box(store, id, table).expect("written points");
    if id < store.oracle_cache_limit() {
        assert!(store.oracle_range_sum(id) == around.get_range_sum());
    }
    let ends = [around.get_min_values(), around.get_max_values()];
    let [low, high] = ends.map(|ends| ends.to_vec());
    (low, high)
}

/// The printed tree of document 01, names line first, with counted masses.
pub fn printed(tree: &Tree) -> String {
    let store = tree.oracle_store();
    let masses = Masses::of(tree);
    let mut text = String::from("id dimension cut left right mass\n");
    for id in ids(tree) {
        let mass = masses.of_node(id);
        let written = if store.is_leaf(id) {
            writeln!(text, "{id} - - - - {mass}")
        } else {
            let (dimension, cut, left, right) = store.cut_and_children(id);
            let bits = cut.to_bits();
            writeln!(text, "{id} {dimension} {bits:08X} {left} {right} {mass}")
        };
        written.expect("a string takes every text");
    }
    text
}

/// The free branch numbers as the manager keeps them, from the bottom of its stack.
pub fn free_intervals(tree: &Tree) -> Vec<(usize, usize)> {
    tree.oracle_store().oracle_manager().oracle_intervals()
}

/// The copies held, as the Rust counts them in `tree_mass`. An emptied tree holds none.
pub fn total(tree: &Tree) -> usize {
    root(tree).map_or(0, |_| tree.oracle_tree_mass())
}

/// The ids of a point's walk, from the leaf to the root. An empty tree has none.
pub fn walk(tree: &Tree, point: &[f32]) -> Vec<usize> {
    let mut path = Vec::new();
    if let Some(id) = root(tree) {
        tree.oracle_store().set_path(&mut path, id, point);
    }
    path.into_iter().rev().map(|(id, _)| id).collect()
}

/// The nodes of a point's walk from the root to a leaf, both counted: the words that an add takes
/// where the value isn't held.
pub fn walk_nodes(tree: &Tree, point: &[f32]) -> usize {
    walk(tree, point).len()
}
