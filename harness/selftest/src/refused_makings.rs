//! What docs/DIFFERENCES.md says of the makings that document 01 refuses, 1 to 4: what the Rust makes of them.
use crate::differences::{grown, panic_of, BELOW_ZERO, HALF};
use crate::examples::line;
use oracle::rcflib::samplerplustree::nodestore::BasicStore;
use oracle::rcflib::samplerplustree::randomcuttree::RCFTree;
use oracle::rcflib::types::Location;
use oracle::{ids, nodes, BareTree, Node, Result, SampledTree, Table};
use std::fmt::Debug;

/// A number that its width has no room for.
const TOO_WIDE: &str = "called `Result::unwrap()` on an `Err` value: TryFromIntError(())";

/// Runs all and answers how many there are.
pub fn run() -> usize {
    let listed: [fn(); 8] = [
        channels_out_of_range,
        capacities_too_small,
        capacity_257,
        leaf_ids_too_large,
        capacities_too_large,
        shares_out_of_range,
        initial_shares_that_start_nothing,
        initial_shares_like_others,
    ];
    for look in listed {
        look();
    }
    listed.len()
}

/// A tree of so many channels after adds of zeros and of a reading that is 8 in the last channel.
fn of_channels(channels: usize) -> (BareTree, Table) {
    let mut reading = vec![0.0; channels];
    let mut table = Table::new();
    table.put(0, &reading);
    if let Some(last) = reading.last_mut() {
        *last = 8.0;
    }
    table.put(1, &reading);
    let mut bare = BareTree::make(channels, 4, 1.0).unwrap();
    bare.add(&table, 0, &[]).unwrap();
    bare.add(&table, 1, &[HALF]).unwrap();
    (bare, table)
}

/// Readings of no channel are all equal. A channel is cut as any other as long as its number fits in u8.
fn channels_out_of_range() {
    let (none, table) = of_channels(0);
    let leaf = Node::Leaf {
        id: 4,
        point: 0,
        copies: 2,
        mass: 2,
    };
    assert_eq!(nodes(none.tree(), &table), [leaf]);
    for channels in [33, 256] {
        let (bare, _) = of_channels(channels);
        let branch = bare.tree().oracle_store().cut_and_children(0);
        assert_eq!(branch, (channels - 1, 4.0, 4, 5));
    }
    assert_eq!(panic_of(|| of_channels(257)), TOO_WIDE);
}

fn capacities_too_small() {
    for capacity in [0, 1] {
        let message = panic_of(|| BareTree::make(1, capacity, 1.0));
        assert_eq!(message, BELOW_ZERO);
    }
}

/// It is made, and holds one reading more than the port's largest.
fn capacity_257() {
    let readings: Vec<f32> = (0u16..257).map(f32::from).collect();
    let table = line(&readings);
    let mut bare = BareTree::make(1, 257, 1.0).unwrap();
    for index in 0..257 {
        bare.add(&table, index, &[HALF; 256]).unwrap();
    }
    assert_eq!(ids(bare.tree()).len(), 257 + 256);
}

/// A leaf's id is its index plus the capacity, and a branch keeps it in u16. The root is kept in usize.
fn leaf_ids_too_large() {
    let mut table = line(&[0.0]);
    table.put(1_023, &[8.0]);
    assert_eq!(
        ids(grown(&table, 64_512, &[0, 1_023]).tree()),
        [0, 64_512, 65_535]
    );
    assert_eq!(panic_of(|| grown(&table, 64_513, &[0, 1_023])), TOO_WIDE);
    assert_eq!(ids(grown(&table, 65_536, &[0]).tree()), [65_536]);
    assert_eq!(panic_of(|| grown(&table, 65_536, &[1_023, 0])), TOO_WIDE);
}

/// What the making of a tree with masses of width N comes to.
fn made_with<N: Location>(capacity: usize) -> Result<()>
where
    usize: From<N>,
    <N as TryFrom<usize>>::Error: Debug,
{
    let made = RCFTree::<u8, u16, N>::new(1, capacity, false, false, false, false, 1.0, 0);
    made.map(|_| ())
}

/// The one making that the Rust refuses itself: masses are kept less one in the width N.
fn capacities_too_large() {
    let refused = |made: Result<()>| {
        let error = made.unwrap_err();
        assert_eq!(
            error.to_string(),
            " invalid parameter, increase size of N to represent {}"
        );
    };
    refused(made_with::<u16>(65_537));
    refused(made_with::<u16>(usize::MAX));
    refused(SampledTree::make(1, 65_537, 1.0, 1.0).map(|_| ()));
    assert_eq!(made_with::<u8>(256), Ok(()));
    refused(made_with::<u8>(257));
    let widest = RCFTree::<u8, usize, usize>::new(1, 65_537, false, false, false, false, 1.0, 0);
    assert!(widest.is_ok());
}

/// Below 0 and for NaN nothing is cached. A share for whose boxes there is no room panics.
fn shares_out_of_range() {
    for (share, cached) in [(-1.0, 0), (f64::NAN, 0), (-0.0, 0), (2.0, 8)] {
        let bare = BareTree::make(1, 4, share).unwrap();
        assert_eq!(bare.tree().oracle_store().oracle_cache_limit(), cached);
    }
    let message = panic_of(|| BareTree::make(1, 4, f64::INFINITY));
    assert_eq!(message, "attempt to multiply with overflow");
}

/// The sample after a first arrival of this weight, with this word for the starting chance.
fn first_arrival(initial: f64, start: u64, weight: f32) -> Vec<(f32, usize)> {
    let mut sampled = SampledTree::make(1, 2, 1.0, initial).unwrap();
    sampled
        .arrive(&line(&[0.0]), 0, weight, start, &[])
        .unwrap();
    sampled.heap()
}

/// Below 0 an empty sample's chance is below 1, for NaN nothing starts. A first arrival that doesn't start is
/// compared with the 0 in the sampler's first place: if lower, the empty sampler is to evict.
fn initial_shares_that_start_nothing() {
    for (share, start) in [(-1.0, HALF), (f64::NAN, 0), (f64::NEG_INFINITY, 0)] {
        let message = panic_of(|| first_arrival(share, start, -1.0));
        assert_eq!(message, BELOW_ZERO);
        assert_eq!(first_arrival(share, start, 0.0), []);
    }
    assert_eq!(first_arrival(-1.0, HALF - 1, -1.0), [(-1.0, 0)]);
}

/// Above 1 the chances are those of 1, at minus zero and right below it those of 0.
fn initial_shares_like_others() {
    let chances = |share: f64| {
        let sampled = SampledTree::make(1, 4, 1.0, share).unwrap();
        [0.0, 0.25, 0.5, 0.75].map(|fill| sampled.chance(fill))
    };
    assert_eq!(chances(2.0), [1.0; 4]);
    assert_eq!(chances(2.0), chances(1.0));
    assert_eq!(chances(f64::INFINITY), chances(1.0));
    assert_eq!(chances(-0.0), [1.0, 0.75, 0.5, 0.25]);
    assert_eq!(chances(-0.0), chances(0.0));
    assert_eq!(chances(-5e-324), chances(0.0));
    assert_eq!(first_arrival(2.0, u64::MAX, 1.0), [(1.0, 0)]);
}
