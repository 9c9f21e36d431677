//! Stands in for rcf.rs: the functions that `VisitorInfo` points at.
//! It can't change what is compared: the walk report's visitor calls none of them, so each stops
//! the run if it is ever reached.
pub fn score_seen(_x: usize, _y: usize) -> f64 {
    unimplemented!()
}
pub fn score_unseen(_x: usize, _y: usize) -> f64 {
    unimplemented!()
}
pub fn score_seen_displacement(_x: usize, _y: usize) -> f64 {
    unimplemented!()
}
pub fn score_unseen_displacement(_x: usize, _y: usize) -> f64 {
    unimplemented!()
}
pub fn damp(_x: usize, _y: usize) -> f64 {
    unimplemented!()
}
pub fn normalizer(_x: f64, _y: usize) -> f64 {
    unimplemented!()
}
pub fn displacement_normalizer(_x: f64, _y: usize) -> f64 {
    unimplemented!()
}
pub fn identity(_x: f64, _y: usize) -> f64 {
    unimplemented!()
}
