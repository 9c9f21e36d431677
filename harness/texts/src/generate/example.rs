//! Document 01's own text.
use super::Given;
use crate::text::{Making, Row, Text};

const HALF: u64 = 1 << 63;

/// The text of document 01: three puts and three adds, the third taking two words.
pub fn document() -> Given {
    let making = Making {
        dimensions: 1,
        capacity: 4,
        cache16: 16,
    };
    let put = |(index, x)| Row::Put {
        index,
        coordinates: vec![x],
    };
    let add = |index: u32| Row::Add {
        index,
        words: vec![HALF; index as usize],
    };
    let puts = [(0, 0), (1, 8), (2, 2)].into_iter().map(put);
    let rows = puts.chain((0..3).map(add)).collect();
    Given::in_form("document 01", Text { making, rows })
}
