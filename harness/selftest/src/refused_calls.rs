//! What docs/DIFFERENCES.md says of puts, calls and queries that document 01 refuses for their arguments, 5 to 9,
//! 14 and 16: what the Rust makes of them, on its own point store where the readings table would hide it.
use crate::differences::{grown, panic_of, HALF};
use crate::examples::line;
use oracle::rcflib::pointstore::{PointStore, VectorizedPointStore};
use oracle::rcflib::samplerplustree::nodestore::BasicStore;
use oracle::rcflib::samplerplustree::samplerplustree::SamplerPlusTree;
use oracle::{
    draw_of_no_weight, feed, ids, nodes, shown, BareTree, Node, SampledTree, Table, Tree,
};

const NO_ATTRIBUTE: usize = usize::MAX;

/// Runs all and answers how many there are.
pub fn run() -> usize {
    let listed: [fn(); 12] = [
        index_1024,
        largest_index,
        numbers_of_coordinates,
        coordinates_out_of_range,
        nan_coordinates,
        infinite_coordinates,
        queries_out_of_range,
        index_of_a_leaf_written_again,
        index_never_written,
        arrival_never_written,
        weights_out_of_range,
        ids_not_in_the_tree,
    ];
    for look in listed {
        look();
    }
    listed.len()
}

/// The Rust's own point store, of one channel. It hands out the indices itself, from 0 on.
fn own_store(places: usize) -> VectorizedPointStore<u16, u64, u64> {
    VectorizedPointStore::new(1, 1, places, places, false, false, false, false).unwrap()
}

/// A tree of one channel and capacity 2 over such a store.
fn own_tree() -> Tree {
    Tree::new(1, 2, false, false, false, false, 1.0, 0).unwrap()
}

/// The chances of a report's rows, from the leaf to the root.
fn chances(bare: &BareTree, table: &Table, query: &[f32]) -> Vec<f64> {
    let rows = shown(bare.tree(), table, query).unwrap();
    rows.iter().map(|row| row.probability).collect()
}

/// Cut of branch 0 after adds of two readings with a word of one half.
fn cut_between(first: f32, second: f32) -> f32 {
    let bare = grown(&line(&[first, second]), 4, &[0, 1]);
    bare.tree().oracle_store().cut_value(0)
}

fn index_1024() {
    let mut store = own_store(1_025);
    for index in 0..1_025 {
        assert_eq!(store.add(&[index as f32], 0).unwrap().0, index);
    }
    let mut tree = own_tree();
    feed::set(&[HALF]);
    assert_eq!(tree.add(0, NO_ATTRIBUTE, &store), Ok(0));
    assert_eq!(tree.add(1_024, NO_ATTRIBUTE, &store), Ok(1_024));
    assert_eq!(ids(&tree), [0, 2, 1_026]);
}

/// As an add its leaf's id has no room; as an arrival it stands for none at all.
fn largest_index() {
    let mut bare = BareTree::make(1, 2, 1.0).unwrap();
    let message = panic_of(|| bare.add(&Table::new(), usize::MAX, &[]));
    assert_eq!(message, "attempt to add with overflow");
    let mut sampled = SampledTree::make(1, 2, 1.0, 1.0).unwrap();
    let arrived = sampled.arrive(&Table::new(), usize::MAX, -1.0, 0, &[]);
    assert_eq!(arrived, Ok(None));
    assert_eq!((feed::taken(), sampled.heap().len()), (0, 0));
}

/// The point store counts them, a report doesn't.
fn numbers_of_coordinates() {
    for reading in [&[][..], &[0.0, 0.0]] {
        let error = own_store(2).add(reading, 0).unwrap_err();
        assert_eq!(error.to_string(), "incorrect lengths");
    }
    let table = line(&[0.0, 8.0]);
    let two = grown(&table, 4, &[0, 1]);
    assert_eq!(chances(&two, &table, &[0.0]), [0.0, 0.0]);
    assert_eq!(chances(&two, &table, &[0.0, 0.0]), [1.0, 0.0]);
    let message = panic_of(|| chances(&two, &table, &[]));
    assert_eq!(
        message,
        "index out of bounds: the len is 0 but the index is 0"
    );
    assert_eq!(chances(&grown(&table, 4, &[0]), &table, &[]), [1.0]);
}

/// They are taken as any other, and minus zero equals zero.
fn coordinates_out_of_range() {
    assert_eq!(cut_between(0.0, 0.5), 0.25);
    assert_eq!(cut_between(0.0, 1_048_577.0), 524_288.5);
    let table = line(&[0.0, -0.0]);
    let leaf = Node::Leaf {
        id: 4,
        point: 0,
        copies: 2,
        mass: 2,
    };
    assert_eq!(nodes(grown(&table, 4, &[0, 1]).tree(), &table), [leaf]);
}

/// NaN is taken as a lone leaf. It equals nothing and no cut parts it.
fn nan_coordinates() {
    assert!(own_store(2).add(&[f32::NAN], 0).is_ok());
    let table = line(&[f32::NAN, f32::NAN]);
    let mut bare = grown(&table, 4, &[0]);
    let error = bare.add(&table, 1, &[HALF]).unwrap_err();
    assert_eq!(error.to_string(), "incorrect state");
    assert_eq!((bare.tree().oracle_tree_mass(), feed::taken()), (2, 1));
    assert_eq!(ids(bare.tree()), [4]);
}

/// An infinite side leaves a rest that is NaN.
fn infinite_coordinates() {
    let draws = feed::seed17_draws();
    assert_eq!(cut_between(0.0, f32::INFINITY), 0.0);
    assert_eq!(feed::seed17_draws(), draws + 1);
}

fn queries_out_of_range() {
    let table = line(&[0.0, 8.0]);
    let two = grown(&table, 4, &[0, 1]);
    assert_eq!(chances(&two, &table, &[0.5]), [1.0, 0.0]);
    assert_eq!(chances(&two, &table, &[-0.0]), [0.0, 0.0]);
    assert_eq!(chances(&two, &table, &[f32::NAN]), [1.0, 0.0]);
    assert!(chances(&two, &table, &[f32::INFINITY])[1].is_nan());
}

/// An index whose count is 0 is handed out again, though the tree has a leaf of it.
fn index_of_a_leaf_written_again() {
    let mut store = own_store(2);
    let mut tree = own_tree();
    assert_eq!(store.add(&[0.0], 0).unwrap().0, 0);
    tree.add(0, NO_ATTRIBUTE, &store).unwrap();
    store.dec(0, NO_ATTRIBUTE).unwrap();
    assert_eq!(store.add(&[8.0], 0).unwrap().0, 0);
    assert_eq!((ids(&tree), store.copy(0)), (vec![2], Ok(vec![8.0])));
}

/// An add to an empty tree doesn't look at the point, and a delete counts down before it looks.
fn index_never_written() {
    let unwritten = own_store(8);
    let mut tree = own_tree();
    let error = tree.delete(5, NO_ATTRIBUTE, &unwritten).unwrap_err();
    assert_eq!(error.to_string(), " deleting from an empty tree");
    assert_eq!(tree.add(5, NO_ATTRIBUTE, &unwritten), Ok(5));
    for index in [6, 1_024] {
        let error = tree.add(index, NO_ATTRIBUTE, &unwritten).unwrap_err();
        assert_eq!(error.to_string(), "index not in use");
    }
    assert_eq!(tree.oracle_tree_mass(), 1);
    let error = tree.delete(6, NO_ATTRIBUTE, &unwritten).unwrap_err();
    assert_eq!(error.to_string(), "index not in use");
    assert_eq!(tree.oracle_tree_mass(), 0);
}

/// What it evicts is gone from sample and tree before its own point is looked for.
fn arrival_never_written() {
    let table = line(&[0.0, 8.0]);
    let mut sampled = SampledTree::make(1, 2, 1.0, 1.0).unwrap();
    for (index, weight) in [(0, -1.0), (1, -3.0)] {
        sampled
            .arrive(&table, index, weight, 0, &[HALF; 2])
            .unwrap();
    }
    assert!(sampled.arrive(&table, 2, -2.0, 0, &[HALF; 2]).is_err());
    assert_eq!(sampled.heap(), [(-3.0, 1)]);
    assert_eq!(ids(sampled.tree()), [3]);
}

/// The bits of the weight that a first arrival is kept with: ln(-ln(draw)) less the decay.
fn weight_kept(draw: f64, decay: f64) -> u32 {
    let made = SamplerPlusTree::new(1, 2, false, 0, false, false, false, 0.0, 1.0, 1.0);
    let mut both: SamplerPlusTree<u8, u16, u16> = made.unwrap();
    both.oracle_set_clock(decay, 1);
    feed::set(&[0]);
    feed::set_first(draw);
    both.update(0, NO_ATTRIBUTE, &line(&[0.0])).unwrap();
    let kept = both.oracle_sampler().oracle_heap();
    kept[0].0.to_bits()
}

/// A drawn 0 makes an infinite weight, a decay too small for f32 minus zero. Both are taken, and NaN.
fn weights_out_of_range() {
    assert_eq!(weight_kept(0.0, 0.0), 0x7F80_0000);
    assert_eq!(weight_kept(draw_of_no_weight(), 1e-50), 0x8000_0000);
    assert!(f32::from_bits(weight_kept(draw_of_no_weight(), f64::NAN)).is_nan());
}

/// Branch 0 above the leaves 4 and 5. The store's functions look at no more than on which side of the
/// capacity an id lies.
fn ids_not_in_the_tree() {
    let bare = grown(&line(&[0.0, 8.0]), 4, &[0, 1]);
    let store = bare.tree().oracle_store();
    let error = store.leaf_point_index(0).unwrap_err();
    assert_eq!(error.to_string(), " not a leaf index");
    assert_eq!((store.leaf_point_index(6), store.mass(6)), (Ok(2), 1));
    assert_eq!(
        (store.cut_and_children(1), store.mass(1)),
        ((255, 0.0, 3, 3), 1)
    );
    let no_branch = (usize::MAX, f32::MAX, usize::MAX, usize::MAX);
    assert_eq!(store.cut_and_children(4), no_branch);
    let message = panic_of(|| store.mass(3));
    assert_eq!(
        message,
        "index out of bounds: the len is 3 but the index is 3"
    );
}
