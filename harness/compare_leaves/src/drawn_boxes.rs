//! Boxes, points and other boxes to compare on.
use crate::port::{Row, WIDTH};
use oracle::rcflib::samplerplustree::boundingbox::BoundingBox;
use oracle::Words;
use runs::generate::Widths;

/// The largest coordinate; the least is minus this.
const EDGE: i32 = 1 << 20;

/// A box, and two points, which are also the corners of another box.
#[derive(Clone, Copy, Debug)]
pub struct Given {
    pub channels: usize,
    pub lower: Row,
    pub upper: Row,
    pub point: Row,
    pub other: Row,
    /// Whether all of them are coordinates.
    pub whole: bool,
}

/// What the floats of a box may be.
#[derive(Clone, Copy)]
enum Kind {
    Coordinates,
    Finite,
    NotNan,
    Any,
}

/// Where floats are drawn from.
#[derive(Clone, Copy)]
enum Spread {
    /// Coordinates: all, those at the edges and next to 0, 0 and 1, and those from -4 to 4.
    Full,
    Edges,
    ZeroOne,
    Small,
    /// All patterns.
    Bits,
    /// Patterns next to this one.
    Near(u32),
    /// Numbers at which something changes.
    Odd,
}

/// Where the coordinate of a point lies.
#[derive(Clone, Copy)]
enum Place {
    Anywhere,
    Between,
    Face,
    /// Next to a face, inside or outside.
    Beside,
}

const ODD: [f32; 14] = [
    0.0,
    -0.0,
    1e-45,
    -1e-45,
    f32::MIN_POSITIVE,
    1.0,
    -1.0,
    16_777_216.0,
    0.1,
    f32::MAX,
    f32::MIN,
    f32::INFINITY,
    f32::NEG_INFINITY,
    f32::NAN,
];

pub fn coordinates(words: &mut Words) -> Given {
    given(Kind::Coordinates, words)
}

/// Coordinates too, as in those below.
pub fn finite(words: &mut Words) -> Given {
    given(Kind::Finite, words)
}

pub fn not_nan(words: &mut Words) -> Given {
    given(Kind::NotNan, words)
}

pub fn any(words: &mut Words) -> Given {
    given(Kind::Any, words)
}

pub fn none(_: &mut Words) -> Vec<Given> {
    vec![]
}

/// The Rust's box around two points of so many channels.
pub fn around(channels: usize, first: &Row, second: &Row) -> BoundingBox {
    BoundingBox::new(&first[..channels], &second[..channels]).expect("as many channels")
}

/// A point or ends of fewer channels, with +0.0 in the others.
pub fn row(values: &[f32]) -> Row {
    let mut row = [0.0; WIDTH];
    row[..values.len()].copy_from_slice(values);
    row
}

fn given(kind: Kind, words: &mut Words) -> Given {
    use Spread::*;
    let near = Near(words.word() as u32);
    let whole = matches!(kind, Kind::Coordinates) || words.once_in(4);
    let spread = match whole {
        true => words.one_of(&[Full, Edges, ZeroOne, Small]),
        false => words.one_of(&[Bits, near, near, Odd]),
    };
    let drawn = Drawn { kind, spread };
    let channels = Widths::All.channels(words) as usize;
    let (mut first, mut second) = ([0.0; WIDTH], [0.0; WIDTH]);
    let flat = words.once_in(8);
    for i in 0..channels {
        first[i] = drawn.value(words);
        second[i] = match flat || words.once_in(8) {
            true => first[i],
            false => drawn.value(words),
        };
    }
    let ends = around(channels, &first, &second);
    let (low, high) = (ends.get_min_values(), ends.get_max_values());
    Given {
        channels,
        lower: row(low),
        upper: row(high),
        point: drawn.point(low, high, words),
        other: drawn.point(low, high, words),
        whole,
    }
}

struct Drawn {
    kind: Kind,
    spread: Spread,
}

impl Drawn {
    fn takes(&self, x: f32) -> bool {
        match self.kind {
            Kind::Coordinates => x.abs() <= EDGE as f32,
            Kind::Finite => x.is_finite(),
            Kind::NotNan => !x.is_nan(),
            Kind::Any => true,
        }
    }

    fn value(&self, words: &mut Words) -> f32 {
        let x = match self.spread {
            Spread::Full => words.between(-EDGE, EDGE) as f32,
            Spread::Edges => words.one_of(&[-EDGE, 1 - EDGE, -1, 0, 1, EDGE - 1, EDGE]) as f32,
            Spread::ZeroOne => words.between(0, 1) as f32,
            Spread::Small => words.between(-4, 4) as f32,
            Spread::Bits => f32::from_bits(words.word() as u32),
            Spread::Near(bits) => f32::from_bits(bits.wrapping_add_signed(words.between(-4, 4))),
            Spread::Odd => words.one_of(&ODD),
        };
        match self.takes(x) {
            true => x,
            false => 0.5,
        }
    }

    /// A point: anywhere, in the box, on its faces, in it but for one channel, or any of these in each
    /// channel.
    fn point(&self, low: &[f32], high: &[f32], words: &mut Words) -> Row {
        use Place::*;
        let most = words.one_of(&[Anywhere, Between, Face, Between, Face]);
        let chosen = words.below(low.len());
        let one = words.once_in(2);
        let mixed = words.once_in(4);
        let mut point = [0.0; WIDTH];
        for i in 0..low.len() {
            let place = match (mixed, one && i == chosen) {
                (true, _) => words.one_of(&[Anywhere, Between, Face, Beside]),
                (_, true) => words.one_of(&[Anywhere, Beside]),
                _ => most,
            };
            let x = self.at(place, low[i], high[i], words);
            point[i] = if self.takes(x) { x } else { low[i] };
        }
        point
    }

    fn at(&self, place: Place, low: f32, high: f32, words: &mut Words) -> f32 {
        let end = words.one_of(&[low, high]);
        let whole = matches!(
            self.spread,
            Spread::Full | Spread::Edges | Spread::ZeroOne | Spread::Small
        );
        match (place, whole) {
            (Place::Anywhere, _) => self.value(words),
            (Place::Face, _) => end,
            (Place::Between, true) => words.between(low as i32, high as i32) as f32,
            (Place::Between, false) => low / 2.0 + high / 2.0,
            (Place::Beside, true) => {
                let beside = end as i32 + words.one_of(&[-1, 1]);
                beside.clamp(-EDGE, EDGE) as f32
            }
            (Place::Beside, false) => words.one_of(&[end.next_up(), end.next_down()]),
        }
    }
}
