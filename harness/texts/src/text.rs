//! The texts of `treelist`: their making and their op rows, as they are written, and the calls they
//! stand for.
use crate::in_form::{coordinate_bits, coordinate_fields, share, word_fields};
use crate::in_form::{Head, InForm, OpRow};
use runs::Call;

/// A text in form.
pub type Text = InForm<Making, Row>;

/// The making's numbers, in range or not.
#[derive(Clone, Copy, Debug, PartialEq)]
pub struct Making {
    pub dimensions: u32,
    pub capacity: u32,
    pub cache16: u32,
}

/// An op row.
#[derive(Clone, Debug, PartialEq)]
pub enum Row {
    Put { index: u32, coordinates: Vec<i32> },
    Add { index: u32, words: Vec<u64> },
    Delete { index: u32 },
}

impl Head for Making {
    const NAMES: &'static str = "dimensions capacity cache16";

    fn numbers(&self) -> Vec<u32> {
        vec![self.dimensions, self.capacity, self.cache16]
    }
}

impl Making {
    pub fn of_tree(&self) -> runs::Making {
        runs::Making::bare(self.dimensions, self.capacity, share(self.cache16))
    }
}

impl OpRow for Row {
    fn line(&self) -> String {
        match self {
            Row::Put { index, coordinates } => {
                format!("0 {index}{}", coordinate_fields(coordinates))
            }
            Row::Add { index, words } => format!("1 {index}{}", word_fields(words)),
            Row::Delete { index } => format!("2 {index}"),
        }
    }

    fn index(&self) -> Option<u32> {
        match self {
            Row::Put { index, .. } | Row::Add { index, .. } | Row::Delete { index } => Some(*index),
        }
    }
}

impl Row {
    /// The call that the row stands for.
    pub fn call(&self) -> Call {
        match self {
            Row::Put { index, coordinates } => Call::Put {
                index: *index,
                coordinates: coordinate_bits(coordinates),
            },
            Row::Add { index, words } => Call::Add {
                index: *index,
                words: words.clone(),
            },
            Row::Delete { index } => Call::Delete { index: *index },
        }
    }
}
