use crate::{Masses, Table, Tree};
use rcflib::samplerplustree::nodeview::{SmallNodeView, UpdatableNodeView};
use rcflib::samplerplustree::randomcuttree::Traversable;
use rcflib::types::Result;
use rcflib::visitor::visitor::{Visitor, VisitorInfo};

/// A row of a walk report.
#[derive(Clone, Copy, Debug, PartialEq)]
pub struct Row {
    pub id: usize,
    pub depth: usize,
    pub mass: usize,
    pub probability: f64,
}

impl Row {
    /// The row of what a visitor is shown, its mass the Rust's own.
    #[inline]
    pub fn shown(view: &SmallNodeView) -> Self {
        Row {
            id: UpdatableNodeView::<u64, u64>::current_node(view),
            depth: view.depth(),
            mass: view.mass(),
            probability: view.probability_of_cut(),
        }
    }
}

/// A visitor that never converges, wants no shadow box and keeps what it is shown.
struct Rows(Vec<Row>);

impl Rows {
    fn make(_tree_mass: usize, _parameters: &[usize], _info: &VisitorInfo) -> Self {
        Rows(Vec::new())
    }

    fn keep(&mut self, view: &SmallNodeView) -> Result<()> {
        self.0.push(Row::shown(view));
        Ok(())
    }
}

impl Visitor<SmallNodeView, Vec<Row>> for Rows {
    fn accept(&mut self, _: &[f32], _: &VisitorInfo, view: &SmallNodeView) -> Result<()> {
        self.keep(view)
    }
    fn accept_leaf(&mut self, _: &[f32], _: &VisitorInfo, view: &SmallNodeView) -> Result<()> {
        self.keep(view)
    }
    fn is_converged(&self) -> Result<bool> {
        Ok(false)
    }
    fn result(&self, _: &VisitorInfo) -> Result<Vec<Row>> {
        Ok(self.0.clone())
    }
    fn use_shadow_box(&self) -> bool {
        false
    }
}

/// The walk report of a query, from the leaf to the root: ids, depths and probabilities as the Rust shows
/// them, with the tree's counted masses.
pub fn report(tree: &Tree, table: &Table, masses: &Masses, query: &[f32]) -> Result<Vec<Row>> {
    Ok(masses.in_rows(shown(tree, table, query)?))
}

/// The rows as the unchanged `traverse` shows them, the Rust's own masses among them. For an empty tree the
/// Rust gives the default, here no row.
pub fn shown(tree: &Tree, table: &Table, query: &[f32]) -> Result<Vec<Row>> {
    let info = VisitorInfo::default();
    Traversable::<SmallNodeView, Rows, Vec<Row>, u64, u64>::traverse(
        tree,
        query,
        &[],
        Rows::make,
        &info,
        table,
        &Vec::new(),
    )
}
