//! The archives that stand in the repository, and document 01's sample.
use super::Given;
use crate::archive::{Archive, Making, Row};

const WRITTEN: &[u8] = include_bytes!(concat!(
    env!("CARGO_MANIFEST_DIR"),
    "/../../examples/archive.txt"
));

const KEYED: &[u8] = include_bytes!(concat!(
    env!("CARGO_MANIFEST_DIR"),
    "/../../examples/keyed.txt"
));

const HALF: u64 = 1 << 63;

/// How many archives of lanterns there are.
pub const LANTERNS: usize = 2;

/// Those of the folder `examples`.
pub fn lanterns() -> Vec<Given> {
    vec![
        Given::untold("examples/archive.txt", WRITTEN.to_vec()),
        Given::untold("examples/keyed.txt", KEYED.to_vec()),
    ]
}

/// How many there are of document 01's sample.
pub const STARRED: usize = 2;

/// 'Capacity 2, initial share 1, three different readings, weights -1, -3, -1: the third is not accepted; -2
/// in its place evicts the first.' With a report before, between and after.
pub fn starred() -> Vec<Given> {
    let given = |third: f32| {
        let put = |(index, x)| Row::Put {
            index,
            coordinates: vec![x],
        };
        let arrival = |(index, weight): (u32, f32)| Row::Arrival {
            index,
            weight: weight.to_bits(),
            start: 0,
            words: vec![HALF; 2],
        };
        let report = Row::Report {
            coordinates: vec![12],
        };
        let mut rows: Vec<Row> = [(0, 0), (1, 8), (2, 4)].map(put).to_vec();
        rows.push(report.clone());
        rows.extend([(0, -1.0), (1, -3.0)].map(arrival));
        rows.push(report.clone());
        rows.push(arrival((2, third)));
        rows.push(report);
        let making = Making {
            dimensions: 1,
            capacity: 2,
            cache16: 16,
            initial16: 16,
        };
        Given::in_form("document 01", Archive { making, rows })
    };
    vec![given(-1.0), given(-2.0)]
}
