//! Stands in for common/divector.rs: the type and the functions that nodestore.rs and nodeview.rs
//! name. It can't change what is compared: only views other than `SmallNodeView` use it, and each
//! function stops the run if it is ever reached.
use crate::samplerplustree::boundingbox::BoundingBox;

pub struct DiVector {
    pub high: Vec<f64>,
    pub low: Vec<f64>,
}

impl DiVector {
    pub fn scale(&mut self, _factor: f64) {
        unimplemented!()
    }
    pub fn assign_as_probability_of_cut(&mut self, _box: &BoundingBox, _point: &[f32]) {
        unimplemented!()
    }
    pub fn assign_as_probability_of_cut_with_missing_coordinates(
        &mut self,
        _box: &BoundingBox,
        _point: &[f32],
        _missing: &[bool],
    ) {
        unimplemented!()
    }
}
