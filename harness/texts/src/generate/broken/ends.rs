//! Breaks at the ends of a text, each with the first bad row that it leaves of so many.
use oracle::Words;

pub fn no_line_feed(bytes: &mut Vec<u8>, rows: usize, _: &mut Words) -> usize {
    bytes.pop();
    rows
}

/// Fewer bytes than this are left, which have to end before the first op row.
pub fn cut_short(bytes: &mut Vec<u8>, end: usize, words: &mut Words) -> usize {
    bytes.truncate(words.below(end));
    0
}

pub fn line_feed_first(bytes: &mut Vec<u8>, _: usize, _: &mut Words) -> usize {
    bytes.insert(0, b'\n');
    0
}

pub fn line_feed_alone(bytes: &mut Vec<u8>, _: usize, _: &mut Words) -> usize {
    *bytes = vec![b'\n'];
    0
}

pub fn nothing_left(bytes: &mut Vec<u8>, _: usize, _: &mut Words) -> usize {
    bytes.clear();
    0
}
