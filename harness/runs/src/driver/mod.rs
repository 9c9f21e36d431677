//! A run carried out call by call on the unchanged Rust, with document 01's refusals in document
//! 01's order. Where the Rust has an error for a refusal, it must give it on a copy of its tree,
//! and where document 01 refuses nothing the Rust must give none. Masses are counted over the leaves of
//! the Rust's tree; every other number of an accepted call is the Rust's.
mod bare;
mod queries;
mod report;
mod sampled;

use crate::copies::{value, Copies};
use crate::layout::{Answer, Call, Making};
use crate::refusals::*;
use crate::sums::Sums;
use oracle::{ids, total, walk_nodes, BareTree, Masses, SampledTree, Table, Tree};
use std::cell::OnceCell;
use std::collections::BTreeSet;

/// The tree of a run, alone or with its sample.
enum Made {
    Bare(BareTree),
    Sampled(SampledTree),
}

/// Table and tree of a run, and the copies held.
pub struct Driver {
    making: Making,
    channels: usize,
    capacity: usize,
    table: Table,
    made: Made,
    copies: Copies,
    /// The ids in the tree, worked out when first asked for after a call that changes it.
    ids: OnceCell<BTreeSet<usize>>,
    /// The same for the masses of its nodes.
    masses: OnceCell<Masses>,
    sums: Sums,
}

impl Driver {
    /// A fresh tree over an unwritten table, or the making's refusal.
    pub fn make(making: &Making) -> Result<Self, u32> {
        if let Some(refusal) = making_refusal(making) {
            return Err(refusal);
        }
        let (channels, capacity) = (making.channels as usize, making.capacity as usize);
        let share = f64::from_bits(making.share);
        let made = match making.initial.map(f64::from_bits) {
            None => BareTree::make(channels, capacity, share).map(Made::Bare),
            Some(initial) => {
                SampledTree::make(channels, capacity, share, initial).map(Made::Sampled)
            }
        };
        Ok(Driver {
            making: *making,
            channels,
            capacity,
            table: Table::new(),
            made: made.expect("the Rust takes every making"),
            copies: Copies::default(),
            ids: OnceCell::new(),
            masses: OnceCell::new(),
            sums: Sums::default(),
        })
    }

    /// Carries the call out and answers it. A refused call's other numbers are 0.
    pub fn call(&mut self, call: &Call) -> Answer {
        let answered = match call {
            Call::Put { index, coordinates } => self.put(*index, coordinates).map(|()| vec![]),
            Call::Add { index, words } => self.add(*index, words),
            Call::Delete { index } => self.delete(*index),
            Call::Arrival {
                index,
                weight,
                start,
                words,
            } => self.arrive(*index, *weight, *start, words),
            Call::Report { rows, coordinates } => self.report(*rows, coordinates),
            Call::Copies { id } => self.copies_of(*id),
            Call::Branch { id } => self.branch(*id),
            Call::Box { id } => self.box_of(*id),
            Call::Sample => Ok(self.sample()),
        };
        let count = call.answer_numbers(&self.making) - 1;
        let (refusal, numbers) = match answered {
            Ok(numbers) => (0, numbers),
            Err(refusal) => (refusal, vec![0; count]),
        };
        assert_eq!(numbers.len(), count);
        let narrow = |number: usize| u32::try_from(number).expect("below 2^32");
        [refusal]
            .into_iter()
            .chain(numbers.into_iter().map(narrow))
            .collect()
    }

    fn put(&mut self, index: u32, coordinates: &[u32]) -> Result<(), u32> {
        let index = in_table(index)?;
        let point = self.reading(coordinates)?;
        refuse(self.ids().contains(&(index + self.capacity)), IS_LEAF)?;
        self.table.put(index, &point);
        Ok(())
    }

    /// The reading that the coordinates are.
    fn reading(&self, coordinates: &[u32]) -> Result<Vec<f32>, u32> {
        refuse(coordinates.len() != self.channels, COORDINATE_COUNT)?;
        refuse(!coordinates.iter().all(|x| is_coordinate(*x)), COORDINATE)?;
        Ok(coordinates.iter().map(|x| f32::from_bits(*x)).collect())
    }

    /// After a call that changes the tree.
    fn changed(&mut self) {
        self.ids.take();
        self.masses.take();
        assert_eq!(total(self.tree()), self.copies.total());
    }

    /// The ids in the tree.
    pub fn ids(&self) -> &BTreeSet<usize> {
        self.ids
            .get_or_init(|| ids(self.tree()).into_iter().collect())
    }

    /// The masses of the tree's nodes. The root's is the number of copies that the calls come to.
    fn masses(&self) -> &Masses {
        let counted = || {
            let masses = Masses::of(self.tree());
            assert_eq!(masses.total(), self.copies.total());
            masses
        };
        self.masses.get_or_init(counted)
    }

    /// What the reports so far show of sums.
    pub fn sums(&self) -> Sums {
        self.sums
    }

    pub fn table(&self) -> &Table {
        &self.table
    }

    pub fn tree(&self) -> &Tree {
        match &self.made {
            Made::Bare(bare) => bare.tree(),
            Made::Sampled(sampled) => sampled.tree(),
        }
    }

    pub fn capacity(&self) -> usize {
        self.capacity
    }

    /// Whether the point kept for an index is a value that is held.
    pub fn holds(&self, index: u32) -> bool {
        let point = self.table.point(index as usize);
        point.is_some_and(|point| self.copies.of(&value(point)) > 0)
    }

    /// The words that an add of this index takes.
    pub fn takes(&self, index: u32) -> usize {
        match self.table.point(index as usize) {
            Some(point) if !self.holds(index) => walk_nodes(self.tree(), point),
            _ => 0,
        }
    }
}

fn refuse(condition: bool, refusal: u32) -> Result<(), u32> {
    match condition {
        true => Err(refusal),
        false => Ok(()),
    }
}

fn in_table(index: u32) -> Result<usize, u32> {
    let index = index as usize;
    refuse(index >= Table::SIZE, INDEX)?;
    Ok(index)
}
