//! Stands in for the crate root, which is not at hand: it only names the modules.
//! What it adds of its own, `l1distance`, is a default of `VisitorInfo` that no compared call uses.
//!
//! The modules under `given/` are byte-for-byte copies of the given Rust (see copy_given.sh).
//! The modules under `src/standins/` replace files that the given Rust leans on and that are not
//! at hand. Warnings and formatting are off because the given files may not be changed.
#![allow(warnings)]

#[rustfmt::skip]
#[path = "../given/common"]
pub mod common {
    #[path = "../../src/standins/divector.rs"]
    pub mod divector;
    pub mod intervalstoremanager;
}
#[rustfmt::skip]
#[path = "../given/errors.rs"]
pub mod errors;
#[rustfmt::skip]
#[path = "../given/pointstore.rs"]
pub mod pointstore;
#[path = "standins/rcf.rs"]
pub mod rcf;
#[rustfmt::skip]
#[path = "../given/samplerplustree"]
pub mod samplerplustree {
    pub mod boundingbox;
    pub mod cut;
    pub mod nodestore;
    pub mod nodeview;
    pub mod randomcuttree;
    pub mod sampler;
    pub mod samplerplustree;
}
#[rustfmt::skip]
#[path = "../given/types.rs"]
pub mod types;
#[path = "standins/util.rs"]
pub mod util;
#[rustfmt::skip]
#[path = "../given/visitor"]
pub mod visitor {
    #[path = "../../src/standins/imputevisitor.rs"]
    pub mod imputevisitor;
    pub mod visitor;
}

pub fn l1distance(_a: &[f32], _b: &[f32]) -> f64 {
    unimplemented!()
}
