//! What `treelist` must print for a text: its form by `form`, its tree and the refusals of its rows
//! by the same driver of the Rust that answers the byte runs.
use crate::form;
use crate::text::Text;
use runs::Driver;

/// The refusal of what is out of form.
pub const OUT_OF_FORM: u32 = 17;
/// Request A.7 keeps the printed-tree program to so many channels; more are refused so, before all else of the making.
const MOST_CHANNELS: u32 = 8;
const TOO_MANY_CHANNELS: u32 = 1;

/// What a text comes to.
#[derive(Clone, Debug, PartialEq)]
pub enum Outcome {
    /// Out of form, this being the first bad row.
    Bad(usize),
    /// The making is refused with this number.
    Unmade(u32),
    /// The refused rows in order, each with its number and from 1 its place, and the printed tree.
    Listed {
        refused: Vec<(u32, usize)>,
        list: String,
    },
}

impl Outcome {
    /// The bytes that are printed.
    pub fn bytes(&self) -> Vec<u8> {
        let text = match self {
            Outcome::Bad(row) => refused(OUT_OF_FORM, *row),
            Outcome::Unmade(refusal) => refused(*refusal, 0),
            Outcome::Listed {
                refused: rows,
                list,
            } => {
                let lines = rows.iter().map(|(refusal, row)| refused(*refusal, *row));
                lines.collect::<String>() + list
            }
        };
        text.into_bytes()
    }

    pub fn in_form(&self) -> bool {
        !matches!(self, Outcome::Bad(_))
    }

    /// Every refusal that is printed.
    pub fn refusals(&self) -> Vec<u32> {
        match self {
            Outcome::Bad(_) => vec![OUT_OF_FORM],
            Outcome::Unmade(refusal) => vec![*refusal],
            Outcome::Listed { refused, .. } => {
                refused.iter().map(|(refusal, _)| *refusal).collect()
            }
        }
    }
}

/// The line of a refusal.
pub fn refused(refusal: u32, row: usize) -> String {
    format!("refused {refusal} {row}\n")
}

pub fn outcome(bytes: &[u8]) -> Outcome {
    match form::read(bytes) {
        Err(row) => Outcome::Bad(row),
        Ok(text) => carried_out(&text),
    }
}

/// The bytes that `treelist` must print.
pub fn printed(bytes: &[u8]) -> Vec<u8> {
    outcome(bytes).bytes()
}

fn carried_out(text: &Text) -> Outcome {
    if text.making.dimensions > MOST_CHANNELS {
        return Outcome::Unmade(TOO_MANY_CHANNELS);
    }
    let mut driver = match Driver::make(&text.making.of_tree()) {
        Err(refusal) => return Outcome::Unmade(refusal),
        Ok(driver) => driver,
    };
    let mut refused = Vec::new();
    for (row, number) in text.rows.iter().zip(1..) {
        match driver.call(&row.call())[0] {
            0 => {}
            refusal => refused.push((refusal, number)),
        }
    }
    Outcome::Listed {
        refused,
        list: oracle::printed(driver.tree()),
    }
}
