//! What docs/DIFFERENCES.md says of the Rust, each on its smallest input. Masses are in `masses`; where document 01
//! refuses a making or a call for its arguments alone, that is in `refused_makings` and `refused_calls`.
use crate::examples::line;
use oracle::rcflib::samplerplustree::boundingbox::BoundingBox;
use oracle::rcflib::samplerplustree::cut::Cut;
use oracle::rcflib::samplerplustree::randomcuttree::RCFTree;
use oracle::{cut_choice, feed, nodes, printed, shown, sums, BareTree, Choice, Sampler, Table};
use std::panic::{catch_unwind, set_hook, take_hook, AssertUnwindSafe};

pub const HALF: u64 = 1 << 63;
/// A number that falls below 0, in a build with checks.
pub const BELOW_ZERO: &str = "attempt to subtract with overflow";

/// Runs all and answers how many there are.
pub fn run() -> usize {
    let listed: [fn(); 13] = [
        words_from_leaf_to_root,
        a_word_for_a_box_that_holds_the_point,
        place_counted_from_the_lower_end,
        no_cut_where_the_box_holds_the_point,
        a_rounded_sum,
        branch_seeded_with_17,
        wrong_node,
        full_store,
        report_on_an_empty_tree,
        reheap_moves_nothing,
        empty_sampler,
        largest_masses,
        largest_masses_of_u8,
    ];
    for look in listed {
        look();
    }
    listed.len()
}

/// The message of the panic that `call` ends in.
pub fn panic_of<T>(call: impl FnOnce() -> T) -> String {
    let loud = take_hook();
    set_hook(Box::new(|_| {}));
    let ended = catch_unwind(AssertUnwindSafe(call));
    set_hook(loud);
    let thrown = ended.err().expect("the Rust should panic here");
    match thrown.downcast_ref::<String>() {
        Some(text) => text.clone(),
        None => thrown.downcast_ref::<&str>().expect("a text").to_string(),
    }
}

/// A bare tree of one channel after adds of these indices, each with words of one half.
pub fn grown(table: &Table, capacity: usize, indices: &[usize]) -> BareTree {
    let mut bare = BareTree::make(1, capacity, 1.0).unwrap();
    for &index in indices {
        bare.add(table, index, &[HALF; 4]).unwrap();
    }
    bare
}

/// Leaves 0 and 8, cut at 4, then 16. Three quarters part at the root, with a cut at 12; zeros part
/// at the leaf 8 only. So the root shows which word was the root's.
fn words_from_leaf_to_root() {
    let table = line(&[0.0, 8.0, 16.0]);
    let root_after = |words: [u64; 2]| {
        let mut bare = grown(&table, 4, &[0, 1]);
        bare.add(&table, 2, &words).unwrap();
        bare.tree().oracle_root()
    };
    let three_quarters = 3 << 62;
    assert_eq!(root_after([0, three_quarters]), 1);
    assert_eq!(root_after([three_quarters, 0]), 0);
}

/// Leaves 0 and 8, then 2: the root's box holds it, and its word is taken for nothing.
fn a_word_for_a_box_that_holds_the_point() {
    let table = line(&[0.0, 8.0, 2.0]);
    let after = |word| {
        let mut bare = grown(&table, 4, &[0, 1]);
        let added = bare.add(&table, 2, &[HALF, word]).unwrap();
        (added.words, printed(bare.tree()))
    };
    assert_eq!(after(HALF).0, 2);
    assert_eq!(after(HALF), after(0));
    assert_eq!(after(HALF), after(u64::MAX));
}

/// Leaf 0, point 8, a quarter: the Rust cuts at 2, the paper counts back from 8 to 6.
fn place_counted_from_the_lower_end() {
    let cut = cut_choice(&[0.0], &[0.0], &[8.0], HALF / 2);
    let at_two = Choice::Cut {
        dimension: 0,
        value: 2.0,
        parts: true,
    };
    assert_eq!(cut, at_two);
}

fn no_cut_where_the_box_holds_the_point() {
    assert_eq!(cut_choice(&[0.0], &[8.0], &[4.0], HALF), Choice::NoCut);
    assert_eq!(cut_choice(&[3.0], &[3.0], &[3.0], HALF), Choice::NoCut);
}

/// 1.12: eight distances of 2^21 and one of 1. The sum in whole numbers has no place in an f32.
fn a_rounded_sum() {
    let far = (1 << 20) as f32;
    let reading = |x: f32, last: f32| [&[x; 8][..], &[last]].concat();
    let mut table = Table::new();
    table.put(0, &reading(-far, 0.0));
    table.put(1, &reading(-far, -1.0));
    let query = reading(far, 1.0);
    for share in [0.0, 1.0] {
        let mut bare = BareTree::make(9, 2, share).unwrap();
        bare.add(&table, 0, &[]).unwrap();
        bare.add(&table, 1, &[HALF]).unwrap();
        let rows = shown(bare.tree(), &table, &query).unwrap();
        assert_eq!(rows[1].probability.to_bits(), 0x3FEF_FFFF_E000_0020);
        let sum = sums(bare.tree(), &table, &query)[1];
        assert_eq!((sum.computed, sum.whole), (16_777_216.0, 16_777_217));
        assert_eq!(sum.probability(), rows[1].probability);
        assert_eq!(sum.of_whole().to_bits(), 0x3FEF_FFFF_E000_0040);
    }
}

/// No word gives a factor that leaves a rest after all sides; 1.1 does.
fn branch_seeded_with_17() {
    let leaf = BoundingBox::new(&[0.0], &[0.0]).unwrap();
    let draws = feed::seed17_draws();
    let (cut, parts) = Cut::random_cut_and_separation(&leaf, 1.1, &[8.0]);
    assert_eq!((cut.dimension, cut.value, parts), (0, 0.0, true));
    assert_eq!(feed::seed17_draws(), draws + 1);
}

/// Reading 0 held, delete of reading 1: an error, and the tree's mass is one less.
fn wrong_node() {
    let table = line(&[0.0, 1.0]);
    let mut bare = grown(&table, 2, &[0]);
    let before = nodes(bare.tree(), &table);
    let error = bare.delete(&table, 1).unwrap_err();
    assert_eq!(error.to_string(), " deleting wrong node ");
    assert_eq!(bare.tree().oracle_tree_mass(), 0);
    assert_eq!(nodes(bare.tree(), &table), before);
    let again = panic_of(|| bare.delete(&table, 1));
    assert_eq!(again, BELOW_ZERO);
}

/// Capacity 2 and a third reading: an error after all words are taken, and a mass one more.
fn full_store() {
    let table = line(&[0.0, 1.0, 2.0]);
    let mut bare = grown(&table, 2, &[0, 1]);
    let before = nodes(bare.tree(), &table);
    let error = bare.add(&table, 2, &[HALF; 2]).unwrap_err();
    assert_eq!(
        error.to_string(),
        "no more indices left in interval manager"
    );
    assert_eq!((bare.tree().oracle_tree_mass(), feed::taken()), (3, 2));
    assert_eq!(nodes(bare.tree(), &table), before);
}

fn report_on_an_empty_tree() {
    let bare = BareTree::make(1, 2, 1.0).unwrap();
    assert_eq!(shown(bare.tree(), &Table::new(), &[0.0]), Ok(vec![]));
}

/// Without NaN no heap gets out of order, so NaN must help: 3 stands below 1 then.
fn reheap_moves_nothing() {
    let mut sampler: Sampler<u16> = Sampler::new(6, false).unwrap();
    let mut take = |weight: f32| {
        sampler.accept_point(true, weight, 0, usize::MAX).unwrap();
        sampler.add_point(0).unwrap();
        if weight == 1.0 {
            sampler.evict_max().unwrap();
        }
    };
    for weight in [9.0, f32::NAN, 3.0, 1.0, 0.0, 0.0, 4.0] {
        take(weight);
    }
    let weights = |sampler: &Sampler<u16>| -> Vec<u32> {
        sampler
            .oracle_heap()
            .iter()
            .map(|(weight, _)| weight.to_bits())
            .collect()
    };
    let before = weights(&sampler);
    let numbers = [4.0, f32::NAN, 1.0, 0.0, 0.0, 3.0].map(f32::to_bits);
    assert_eq!(before, numbers);
    assert_eq!(sampler.reheap(true), Ok(()));
    assert_eq!(sampler.reheap(false), Ok(()));
    assert_eq!(weights(&sampler), before);
}

/// An empty sampler compares with the 0 that lies in its first place, an emptied one with the
/// weight that lay there.
fn empty_sampler() {
    let mut sampler: Sampler<u16> = Sampler::new(2, false).unwrap();
    let offer = |sampler: &Sampler<u16>, weight: f32| {
        let mut copy = sampler.clone();
        copy.accept_point(false, weight, 7, usize::MAX)
            .map(|_| copy.add_point(7).is_ok())
    };
    assert_eq!(panic_of(|| offer(&sampler, -1.0)), BELOW_ZERO);
    assert_eq!(offer(&sampler, 0.0), Ok(false));
    sampler.accept_point(true, 5.0, 3, usize::MAX).unwrap();
    sampler.add_point(3).unwrap();
    sampler.evict_max().unwrap();
    assert_eq!(panic_of(|| offer(&sampler, 3.0)), BELOW_ZERO);
    assert_eq!(offer(&sampler, 5.0), Ok(false));
}

/// Masses are kept less one in the width N: a branch of 65,536 fits in u16. A lone leaf is counted
/// in usize.
fn largest_masses() {
    let table = line(&[0.0, 8.0]);
    let mut branch = BareTree::make(1, 2, 1.0).unwrap();
    for n in 0..65_536 {
        branch.add(&table, n % 2, &[HALF]).unwrap();
    }
    panic_of(|| branch.add(&table, 0, &[HALF]));

    let mut lone = BareTree::make(1, 2, 1.0).unwrap();
    for _ in 0..65_537 {
        lone.add(&table, 0, &[]).unwrap();
    }
    assert_eq!(lone.tree().oracle_tree_mass(), 65_537);
}

/// The same for u8, in which a branch of 256 fits.
fn largest_masses_of_u8() {
    let table = line(&[0.0, 8.0]);
    let made = RCFTree::new(1, 2, false, false, false, false, 1.0, 0);
    let mut narrow: RCFTree<u8, u16, u8> = made.unwrap();
    feed::set(&[HALF]);
    for n in 0..256 {
        narrow.add(n % 2, usize::MAX, &table).unwrap();
    }
    panic_of(|| narrow.add(0, usize::MAX, &table));
}
