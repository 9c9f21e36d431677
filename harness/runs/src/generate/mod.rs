//! Runs from a seeded generator, each with the answers that it must get.
mod fed;
mod full;
mod long;
mod readings;
mod reports;
mod sampled;
mod setting;
mod steps;
mod widths;
mod writer;

pub use full::{outward, run as full, Outward};
pub use long::{lone_leaf_to_the_limit, three_values_to_the_limit};
pub use sampled::{
    capacity as sampled_capacity, run as sampled, run_by as sampled_by, run_of as sampled_of,
};
pub use widths::{Widths, FEW};

use crate::expected::carried_out;
use crate::layout::{Answer, Run};
use crate::sums::Sums;
use oracle::Words;
use setting::Setting;

/// A run, the answers to its making and calls, and what its reports show of sums.
#[derive(Clone)]
pub struct Written {
    pub run: Run,
    pub answers: Vec<Answer>,
    pub sums: Sums,
}

impl Written {
    /// The run with all that comes of it.
    pub fn of(run: Run) -> Self {
        let (answers, sums) = carried_out(&run);
        Written { run, answers, sums }
    }
}

/// How many bytes a run and its answers may have.
#[derive(Clone, Copy)]
pub struct Room {
    pub run: usize,
    pub answers: usize,
}

/// A bare run that the generator makes up, in this room.
pub fn run(words: &mut Words, room: Room, widths: Widths) -> Written {
    let setting = Setting::draw(words, room, widths);
    writer::write(setting, words, room)
}

/// A bare run with reports.
pub fn reported(words: &mut Words, room: Room, widths: Widths) -> Written {
    let reports = Some(words.one_of(&[3, 8, 8, 20]));
    let setting = Setting {
        reports,
        ..Setting::draw(words, room, widths)
    };
    writer::write(setting, words, room)
}
