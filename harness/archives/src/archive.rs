//! The archives of `regrow`: their making and their op rows, as they are written, and the calls they stand
//! for.
use chacha20::KEY_BYTES;
use runs::Call;
use texts::{coordinate_bits, coordinate_fields, share, word_fields};
use texts::{Head, InForm, OpRow};

/// An archive in form.
pub type Archive = InForm<Making, Row>;

/// The making's numbers, in range or not.
#[derive(Clone, Copy, Debug, PartialEq)]
pub struct Making {
    pub dimensions: u32,
    pub capacity: u32,
    pub cache16: u32,
    pub initial16: u32,
}

/// An op row.
#[derive(Clone, Debug, PartialEq)]
pub enum Row {
    Put {
        index: u32,
        coordinates: Vec<i32>,
    },
    Arrival {
        index: u32,
        /// The bits of an f32.
        weight: u32,
        /// The word for the starting chance.
        start: u64,
        words: Vec<u64>,
    },
    /// An arrival whose words are those of a key from a number on: the word for the starting chance, then as many for
    /// the tree as the largest capacity.
    Keyed {
        index: u32,
        weight: u32,
        key: [u8; KEY_BYTES],
        first: u64,
    },
    Report {
        coordinates: Vec<i32>,
    },
}

/// How many words a keyed row stands for.
pub const KEYED_WORDS: usize = 257;

impl Head for Making {
    const NAMES: &'static str = "dimensions capacity cache16 initial16";

    fn numbers(&self) -> Vec<u32> {
        vec![self.dimensions, self.capacity, self.cache16, self.initial16]
    }
}

impl Making {
    pub fn of_tree(&self) -> runs::Making {
        let (cached, initial) = (share(self.cache16), share(self.initial16));
        runs::Making::sampled(self.dimensions, self.capacity, cached, initial)
    }
}

impl OpRow for Row {
    fn line(&self) -> String {
        match self {
            Row::Put { index, coordinates } => {
                format!("0 {index}{}", coordinate_fields(coordinates))
            }
            Row::Arrival {
                index,
                weight,
                start,
                words,
            } => format!("3 {index} {weight:08X} {start:016X}{}", word_fields(words)),
            Row::Keyed {
                index,
                weight,
                key,
                first,
            } => format!("3 {index} {weight:08X} {} {first:016X}", digits(key)),
            Row::Report { coordinates } => format!("4 -{}", coordinate_fields(coordinates)),
        }
    }

    fn index(&self) -> Option<u32> {
        match self {
            Row::Put { index, .. } | Row::Arrival { index, .. } => Some(*index),
            Row::Keyed { index, .. } => Some(*index),
            Row::Report { .. } => None,
        }
    }
}

impl Row {
    /// The call that the row stands for, or the refusal of one that stands for none; a report is lent as many rows as
    /// `lent` says of its query.
    pub fn call(&self, lent: impl FnOnce(&[u32]) -> usize) -> Result<Call, u32> {
        Ok(match self {
            Row::Put { index, coordinates } => Call::Put {
                index: *index,
                coordinates: coordinate_bits(coordinates),
            },
            Row::Arrival {
                index,
                weight,
                start,
                words,
            } => Call::Arrival {
                index: *index,
                weight: *weight,
                start: *start,
                words: words.clone(),
            },
            Row::Keyed {
                index,
                weight,
                key,
                first,
            } => {
                let (start, words) = words_of(key, *first)?;
                Call::Arrival {
                    index: *index,
                    weight: *weight,
                    start,
                    words,
                }
            }
            Row::Report { coordinates } => {
                let coordinates = coordinate_bits(coordinates);
                Call::Report {
                    rows: lent(&coordinates) as u32,
                    coordinates,
                }
            }
        })
    }
}

/// The word for the starting chance and those for the tree, or the refusal.
fn words_of(key: &[u8], first: u64) -> Result<(u64, Vec<u64>), u32> {
    let mut words = vec![0; KEYED_WORDS];
    chacha20::stretch(key, first, &mut words)?;
    Ok((words.remove(0), words))
}

fn digits(key: &[u8]) -> String {
    key.iter().map(|byte| format!("{byte:02X}")).collect()
}
