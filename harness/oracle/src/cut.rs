use crate::factor;
use rcflib::samplerplustree::boundingbox::BoundingBox;
use rcflib::samplerplustree::cut::Cut;

/// What the Rust's `Cut::random_cut_and_separation` answers.
#[derive(Clone, Copy, Debug, PartialEq)]
pub enum Choice {
    /// The box holds the point: (usize::MAX, 0.0, false), whatever the word.
    NoCut,
    /// A cut, and whether it parts the point from the box.
    Cut {
        dimension: usize,
        value: f32,
        parts: bool,
    },
}

/// The cut choice of the Rust for a box from `low` to `high`, a point and a word.
pub fn cut_choice(low: &[f32], high: &[f32], point: &[f32], word: u64) -> Choice {
    let around = BoundingBox::new(low, high).expect("as many lower as upper ends");
    let (cut, parts) = Cut::random_cut_and_separation(&around, factor(word), point);
    if cut.dimension == usize::MAX {
        assert!(cut.value.to_bits() == 0 && !parts);
        return Choice::NoCut;
    }
    Choice::Cut {
        dimension: cut.dimension,
        value: cut.value,
        parts,
    }
}
