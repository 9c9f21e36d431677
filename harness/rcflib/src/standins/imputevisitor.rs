//! Stands in for visitor/imputevisitor.rs: the type that `conditional_field` names.
//! It can't change what is compared: `conditional_field` is not ported and never called, and each
//! function stops the run if it is ever reached.
use crate::samplerplustree::nodeview::MediumNodeView;
use crate::types::Result;
use crate::visitor::visitor::{SimpleMultiVisitor, Visitor, VisitorInfo};

pub struct ImputeVisitor;

impl ImputeVisitor {
    pub fn new(_missing: &[usize], _centrality: f64, _mass: usize, _seed: u64) -> Self {
        unimplemented!()
    }
}

impl Visitor<MediumNodeView, (f64, usize, f64)> for ImputeVisitor {
    fn accept(&mut self, _: &[f32], _: &VisitorInfo, _: &MediumNodeView) -> Result<()> {
        unimplemented!()
    }
    fn accept_leaf(&mut self, _: &[f32], _: &VisitorInfo, _: &MediumNodeView) -> Result<()> {
        unimplemented!()
    }
    fn is_converged(&self) -> Result<bool> {
        unimplemented!()
    }
    fn result(&self, _: &VisitorInfo) -> Result<(f64, usize, f64)> {
        unimplemented!()
    }
    fn use_shadow_box(&self) -> bool {
        unimplemented!()
    }
}

impl SimpleMultiVisitor<MediumNodeView, (f64, usize, f64)> for ImputeVisitor {
    fn combine_branches(&mut self, _: &[f32], _: &MediumNodeView, _: &VisitorInfo) -> Result<()> {
        unimplemented!()
    }
}
