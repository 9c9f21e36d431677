//! The byte run of docs/LAYOUT.md: runs written to bytes and read from them, the answers that the
//! unchanged Rust and document 01 demand, and runs to compare, whole ones and damaged ones.
#![forbid(unsafe_code)]

pub mod aimed;
pub mod arriving;
mod checker;
mod copies;
pub mod damaged;
mod decode;
pub mod digits;
mod driver;
mod encode;
pub mod examples;
mod expected;
pub mod generate;
mod layout;
pub mod page;
mod refusals;
mod spans;
mod sums;

pub use checker::{check, Checked};
pub use decode::decode;
pub use driver::Driver;
pub use expected::{answers, bytes_of, needed, outcome, Outcome, MOST_LENT};
pub use layout::{Answer, Call, Making, Run, ROW_NUMBERS};
pub use refusals::MOST_CHANNELS;
pub use spans::Span;
pub use sums::Sums;
