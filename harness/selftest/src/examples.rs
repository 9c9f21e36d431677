//! The examples that document 01 prints, asked of the Rust.
use oracle::{
    cut_choice, free_intervals, printed, shown, Added, BareTree, Choice, SampledTree, Table,
};

const HALF: u64 = 1 << 63;

/// Runs all examples and answers how many there are.
pub fn run() -> usize {
    let examples: [fn(); 10] = [
        cuts_of_one_channel,
        cuts_of_two_channels,
        narrowing,
        roundings_that_show,
        printed_tree,
        probabilities,
        not_accepted_on_equal_weight,
        evicted_on_lower_weight,
        evictions_among_equals,
        branch_numbers,
    ];
    for example in examples {
        example();
    }
    examples.len()
}

/// A table of one-channel readings, at 0, 1, ...
pub fn line(readings: &[f32]) -> Table {
    let mut table = Table::new();
    for (index, &x) in readings.iter().enumerate() {
        table.put(index, &[x]);
    }
    table
}

fn parting(dimension: usize, value: f32) -> Choice {
    Choice::Cut {
        dimension,
        value,
        parts: true,
    }
}

fn leaf_cut(leaf: &[f32], point: &[f32], word: u64) -> Choice {
    cut_choice(leaf, leaf, point, word)
}

fn cuts_of_one_channel() {
    assert_eq!(leaf_cut(&[0.0], &[8.0], 0), parting(0, 0.0));
    assert_eq!(leaf_cut(&[0.0], &[8.0], HALF), parting(0, 4.0));
    assert_eq!(leaf_cut(&[0.0], &[8.0], u64::MAX), parting(0, 0.0));
}

fn cuts_of_two_channels() {
    let (leaf, point) = ([0.0, 0.0], [2.0, 6.0]);
    assert_eq!(leaf_cut(&leaf, &point, HALF / 2), parting(0, 0.0));
    assert_eq!(leaf_cut(&leaf, &point, HALF), parting(1, 2.0));
}

fn narrowing() {
    assert_eq!(1048576.0625f64 as f32, 1048576.0);
    assert_eq!(1048576.1875f64 as f32, 1048576.25);
}

/// The product is rounded before the sides are taken off, and the rest is narrowed before it is
/// added.
fn roundings_that_show() {
    let bits = |leaf, point, word| match leaf_cut(&[leaf], &[point], word) {
        Choice::Cut { value, .. } => value.to_bits(),
        Choice::NoCut => panic!("a leaf other than the point is always cut"),
    };
    assert_eq!(bits(0.0, 3.0, 0xAAAA_AB55_5555_5800), 0x4000_0000);
    assert_eq!(bits(0.0, 5.0, 0x6666_6799_9999_9800), 0x4000_0002);
    assert_eq!(bits(-1048576.0, 1048576.0, 0x8000_0080_0000_0000), 0);
    assert_eq!(
        bits(-1048576.0, 1048576.0, 0x8000_0180_0000_0000),
        0x3E80_0000
    );
    assert_eq!(bits(-1.0, 1.0, HALF), 0);
}

fn printed_tree() {
    let table = line(&[0.0, 8.0, 2.0]);
    let mut bare = BareTree::make(1, 4, 1.0).unwrap();
    assert_eq!(bare.add(&table, 0, &[]), Ok(Added { leaf: 0, words: 0 }));
    assert_eq!(
        bare.add(&table, 1, &[HALF]),
        Ok(Added { leaf: 1, words: 1 })
    );
    assert_eq!(
        bare.add(&table, 2, &[HALF, HALF]),
        Ok(Added { leaf: 2, words: 2 })
    );
    let text = "id dimension cut left right mass\n\
                0 0 40800000 1 5 3\n\
                1 0 3F800000 4 6 2\n\
                4 - - - - 1\n\
                6 - - - - 1\n\
                5 - - - - 1\n";
    assert_eq!(printed(bare.tree()), text);
}

/// Box 0 to 8, at every cached share: the Rust has two ways to a box.
fn probabilities() {
    let table = line(&[0.0, 8.0]);
    for share in [0.0, 0.25, 0.5, 1.0] {
        let mut bare = BareTree::make(1, 2, share).unwrap();
        bare.add(&table, 0, &[]).unwrap();
        bare.add(&table, 1, &[HALF]).unwrap();
        let bits = |query: f32| {
            let rows = shown(bare.tree(), &table, &[query]).unwrap();
            rows.iter()
                .map(|row| row.probability.to_bits())
                .collect::<Vec<_>>()
        };
        assert_eq!(bits(12.0), [1.0f64.to_bits(), 0x3FD5_5555_5555_5555]);
        assert_eq!(bits(8.0), [0, 0]);
    }
}

/// A sampled tree of three different readings with initial share 1, after the first two arrivals.
pub fn two_held(weights: [f32; 2]) -> (SampledTree, Table) {
    let table = line(&[0.0, 8.0, 2.0]);
    let mut sampled = SampledTree::make(1, 2, 1.0, 1.0).unwrap();
    for (index, weight) in weights.into_iter().enumerate() {
        let arrived = sampled.arrive(&table, index, weight, 0, &[HALF; 2]);
        assert_eq!(arrived.unwrap().unwrap().evicted, None);
    }
    (sampled, table)
}

fn not_accepted_on_equal_weight() {
    let (mut sampled, table) = two_held([-1.0, -3.0]);
    assert_eq!(sampled.arrive(&table, 2, -1.0, 0, &[HALF; 2]), Ok(None));
}

fn evicted_on_lower_weight() {
    let (mut sampled, table) = two_held([-1.0, -3.0]);
    let arrived = sampled
        .arrive(&table, 2, -2.0, 0, &[HALF; 2])
        .unwrap()
        .unwrap();
    assert_eq!((arrived.added.leaf, arrived.evicted), (2, Some(0)));
}

/// Of equal largest weights the one at the top of the heap goes: neither by age nor by index.
fn evictions_among_equals() {
    let table = line(&[0.0, 1.0, 2.0, 3.0, 4.0, 5.0, 6.0, 7.0]);
    let mut sampled = SampledTree::make(1, 3, 1.0, 1.0).unwrap();
    let weights = [0.0, 0.0, 0.0, -1.0, -1.0, -1.0, -2.0, -2.0];
    let mut evicted = Vec::new();
    for (index, weight) in weights.into_iter().enumerate() {
        let arrived = sampled.arrive(&table, index, weight, 0, &[HALF; 3]);
        evicted.extend(arrived.unwrap().unwrap().evicted);
    }
    assert_eq!(evicted, [0, 2, 1, 4, 5]);
}

/// Numbers are handed out from the top of a stack of intervals, and a freed one joins only the top.
fn branch_numbers() {
    let table = line(&[0.0, 16.0, 32.0, 48.0, 64.0, 80.0]);
    let free_after = |deleted: &[usize]| {
        let mut bare = BareTree::make(1, 6, 1.0).unwrap();
        for index in 0..6 {
            bare.add(&table, index, &[u64::MAX; 5]).unwrap();
        }
        for &index in deleted {
            bare.delete(&table, index).unwrap();
        }
        free_intervals(bare.tree())
    };
    assert_eq!(free_after(&[]), []);
    assert_eq!(free_after(&[0, 2]), [(0, 0), (2, 2)]);
    assert_eq!(free_after(&[0, 3, 1]), [(0, 0), (3, 3), (1, 1)]);
}
