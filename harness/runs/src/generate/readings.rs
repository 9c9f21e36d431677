//! Readings for puts: from ranges where sides are equal, zero, short or as long as they can be; and
//! what is no reading.
use super::widths::FEW;
use crate::refusals::EDGE;
use oracle::Words;

/// Where the coordinates of a run are drawn from.
#[derive(Clone, Copy, PartialEq)]
pub enum Spread {
    ZeroOne,
    Small,
    Edges,
    Full,
    Powers,
    /// Only some channels differ.
    Flat,
    /// One line, growing with the index.
    Line,
    /// Next to one corner of the whole range; a bit for each channel says which end of it.
    Corner(u32),
}

impl Spread {
    pub const ALL: [Spread; 6] = [
        Spread::ZeroOne,
        Spread::Small,
        Spread::Edges,
        Spread::Full,
        Spread::Powers,
        Spread::Flat,
    ];

    /// Any corner, the lowest and the highest more often.
    pub fn corner(words: &mut Words) -> Self {
        let any = words.word() as u32;
        Spread::Corner(words.one_of(&[0, u32::MAX, any, any, 0x5555_5555]))
    }

    /// A reading for an index, as bits.
    pub fn reading(self, channels: usize, index: u32, words: &mut Words) -> Vec<u32> {
        (0..channels)
            .map(|channel| (self.coordinate(channel, index, words) as f32).to_bits())
            .collect()
    }

    fn coordinate(self, channel: usize, index: u32, words: &mut Words) -> i32 {
        match self {
            Spread::ZeroOne => words.between(0, 1),
            Spread::Small => words.between(-4, 4),
            Spread::Edges => words.one_of(&[-EDGE, 1 - EDGE, -1, 0, 1, EDGE - 1, EDGE]),
            Spread::Full => words.between(-EDGE, EDGE),
            Spread::Powers => words.one_of(&[-1, 1]) << words.between(0, 20),
            Spread::Flat if channel % 3 == 1 => words.between(-40, 40),
            Spread::Flat => 7 - channel as i32,
            Spread::Line if channel == 0 => 16 * (index % 1024) as i32 - 4096,
            Spread::Line => -3,
            Spread::Corner(upper) => {
                let x = EDGE - words.between(0, 1_999);
                if upper >> channel & 1 > 0 {
                    x
                } else {
                    -x
                }
            }
        }
    }
}

/// Bits that are no coordinate.
pub fn bad_coordinate(words: &mut Words) -> u32 {
    let edge = EDGE as f32;
    let odd = [
        -0.0,
        0.5,
        -1.5,
        524_287.5,
        edge + 1.0,
        -edge - 1.0,
        2.0 * edge,
        f32::MAX,
        f32::MIN_POSITIVE,
        f32::INFINITY,
        f32::NEG_INFINITY,
        f32::NAN,
        edge - 0.0625,
    ];
    let signalling = 0x7F80_0001;
    let least = 1;
    let drawn = words.one_of(&odd).to_bits();
    words.one_of(&[
        drawn,
        drawn,
        drawn,
        drawn,
        drawn,
        signalling,
        0xFFFF_FFFF,
        least,
    ])
}

/// A number of coordinates that is not the tree's.
pub fn bad_count(channels: usize, words: &mut Words) -> usize {
    let next = if channels > FEW as usize { 33 } else { 9 };
    words.one_of(&[0, channels - 1, channels + 1, next, 40])
}
