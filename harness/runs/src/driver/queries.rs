//! Queries: what the tree has of an id.
use super::Driver;
use crate::copies::value;
use crate::refusals::NO_SUCH_NODE;
use oracle::{node, Node};

impl Driver {
    pub(super) fn copies_of(&self, id: u32) -> Result<Vec<usize>, u32> {
        match self.node(id) {
            Some(Node::Leaf { point, copies, .. }) => {
                let reading = self.table.point(point).expect("written");
                assert_eq!(copies, self.copies.of(&value(reading)));
                Ok(vec![copies])
            }
            _ => Err(NO_SUCH_NODE),
        }
    }

    pub(super) fn branch(&self, id: u32) -> Result<Vec<usize>, u32> {
        match self.node(id) {
            Some(Node::Branch {
                dimension,
                cut,
                left,
                right,
                mass,
                ..
            }) => Ok(vec![dimension, cut.to_bits() as usize, left, right, mass]),
            _ => Err(NO_SUCH_NODE),
        }
    }

    pub(super) fn box_of(&self, id: u32) -> Result<Vec<usize>, u32> {
        match self.node(id) {
            Some(Node::Branch { low, high, .. }) => Ok(ends(&low).chain(ends(&high)).collect()),
            _ => Err(NO_SUCH_NODE),
        }
    }

    /// The node of an id, if the tree has it.
    fn node(&self, id: u32) -> Option<Node> {
        let id = id as usize;
        let found = self.ids().contains(&id);
        found.then(|| node(self.tree(), &self.table, self.masses(), id))
    }
}

/// The lower or the upper ends of a box as bits, one for each channel.
fn ends(of: &[f32]) -> impl Iterator<Item = usize> + '_ {
    of.iter().map(|x| x.to_bits() as usize)
}
