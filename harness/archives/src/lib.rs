//! The archives of `regrow`: rows of a sampled tree, read line by line, printed as the unchanged Rust
//! and document 01 demand, and made up to be compared, in form and out of it.
#![forbid(unsafe_code)]

mod archive;
pub mod asked;
pub mod form;
pub mod generate;
mod printed;

pub use archive::{Archive, Making, Row};
pub use printed::{outcome, printed, End, Grown, Outcome};
