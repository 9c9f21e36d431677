//! The texts of `treelist` (document 01, 'Printed tree'): read, printed as the unchanged Rust and
//! document 01 demand, and made up to be compared, in form and out of it. What archives have in common
//! with them is here too: lines, fields, and how a form is broken.
#![forbid(unsafe_code)]

pub mod form;
pub mod generate;
mod given;
mod in_form;
mod printed;
mod text;

pub use given::Given;
pub use in_form::{coordinate_bits, coordinate_fields, joined, share, word_fields};
pub use in_form::{Head, InForm, OpRow, OP_NAMES};
pub use printed::{outcome, printed, refused, Outcome, OUT_OF_FORM};
pub use text::{Making, Row, Text};
