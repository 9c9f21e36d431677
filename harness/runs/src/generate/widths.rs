//! How many channels the tree of a drawn run has.
use crate::refusals::MOST_CHANNELS;
use oracle::Words;

/// Up to so many channels the f32 sums of distances are exact. Trees of no more are drawn as they were when none had more, so that what
/// is recorded of them stays.
pub const FEW: u32 = 8;

#[derive(Clone, Copy)]
pub enum Widths {
    /// 1 to 8 channels.
    Few,
    /// 9 to 32.
    Many,
    /// Mostly few, a third of them many.
    All,
}

impl Widths {
    pub fn channels(self, words: &mut Words) -> u32 {
        match self {
            Widths::Few => 1 + words.below(FEW as usize) as u32,
            Widths::Many => many(words),
            Widths::All if words.once_in(3) => many(words),
            Widths::All => Widths::Few.channels(words),
        }
    }
}

/// Any number above the few, the first and the last of them and those at a multiple of eight more often.
fn many(words: &mut Words) -> u32 {
    let any = words.between(FEW as i32 + 1, MOST_CHANNELS as i32) as u32;
    words.one_of(&[9, 9, 9, 10, 16, 17, 24, 31, 32, 32, any, any, any, any])
}
