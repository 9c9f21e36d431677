//! The given Rust as an oracle: each call of document 01 answered by the unchanged Rust.
//!
//! Points come from a [`Table`], words and weights are fed exactly as given, and everything that
//! the port answers can be read off a tree: answers and words taken from the calls themselves,
//! nodes, boxes and free branch numbers from [`nodes`], rows from [`report`]. All of it is the Rust's
//! own but the masses, which are counted over its leaves ([`Masses`]). What the distances of a report add up to is worked out a second time ([`sums`]).
//!
//! The Rust refuses almost nothing. Whoever calls keeps to accepted calls, or takes the `Err` or
//! the panic that the Rust gives instead.
#![forbid(unsafe_code)]

mod cut;
mod masses;
mod nodes;
mod report;
mod sums;
mod table;
mod trees;
mod words;

pub use cut::{cut_choice, Choice};
pub use masses::{rust_mass, Masses};
pub use nodes::{bounds, free_intervals, ids, node, nodes, printed, total, walk, walk_nodes, Node};
pub use rand::{factor, feed};
pub use rcflib;
pub use rcflib::common::intervalstoremanager::IntervalStoreManager;
pub use rcflib::samplerplustree::sampler::Sampler;
pub use rcflib::types::Result;
pub use report::{report, shown, Row};
pub use sums::{sums, Sum};
pub use table::Table;
pub use trees::{draw_of_no_weight, Added, Arrived, BareTree, SampledTree, Tree};
pub use words::Words;
