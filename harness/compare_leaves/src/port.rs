//! The port's leaves, as its crate `leaves` exports them.
#![allow(unsafe_code)]

/// A point, or the lower or upper ends of a box. Channels that are not used hold +0.0.
pub type Row = [f32; WIDTH];

/// How many channels a row has room for.
pub const WIDTH: usize = 32;

// Each asks nothing of its caller but what the types say, and keeps no reference.
unsafe extern "C" {
    pub safe fn sicklephlox_is_coordinate(x: f32) -> bool;
    pub safe fn sicklephlox_is_weight(x: f32) -> bool;
    pub safe fn sicklephlox_is_share(x: f64) -> bool;
    pub safe fn sicklephlox_factor(w: u64) -> f64;
    pub safe fn sicklephlox_narrow(x: f64) -> f32;
    pub safe fn sicklephlox_cached_part(share: f64, capacity: u16) -> usize;
    pub safe fn sicklephlox_box_around(
        lower: &mut Row,
        upper: &mut Row,
        first_values: &Row,
        second_values: &Row,
    );
    pub safe fn sicklephlox_add_point(lower: &mut Row, upper: &mut Row, values: &Row) -> bool;
    pub safe fn sicklephlox_add_box(
        lower: &mut Row,
        upper: &mut Row,
        minvalues: &Row,
        maxvalues: &Row,
    ) -> bool;
    pub safe fn sicklephlox_contains(lower: &Row, upper: &Row, point: &Row) -> bool;
    pub safe fn sicklephlox_strictly_contains(
        lower: &Row,
        upper: &Row,
        point: &Row,
        dimensions: usize,
    ) -> bool;
    pub safe fn sicklephlox_range_sum(lower: &Row, upper: &Row) -> f64;
}
