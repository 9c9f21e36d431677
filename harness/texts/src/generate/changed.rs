//! Texts with a few bytes changed, put in, left out or doubled anywhere. Whether they are still in
//! form is for the reader to tell.
use crate::Given;
use oracle::Words;

/// Bytes that stand in texts, or next to such in their order.
const BYTES: &[u8] = b"0123456789AFGaf/:@`-+ \n\r\t\0\x0B\x7F\x80\xFF.,x";
/// Bytes that often leave a text in form.
const DIGITS: &[u8] = b"0123456789ABCDEF";

pub fn given<T>(mut bytes: Vec<u8>, words: &mut Words) -> Given<T> {
    for _ in 0..words.one_of(&[1, 1, 1, 2, 3]) {
        change(&mut bytes, words);
    }
    Given::untold("bytes changed", bytes)
}

/// One change.
fn change(bytes: &mut Vec<u8>, words: &mut Words) {
    if bytes.is_empty() {
        return;
    }
    let place = words.below(bytes.len());
    let byte = match words.once_in(2) {
        true => words.one_of(DIGITS),
        false => words.one_of(BYTES),
    };
    match words.below(8) {
        0..=2 => bytes[place] = byte,
        3 => bytes[place] ^= 1 << words.below(8),
        4 => bytes.insert(place, byte),
        5 => bytes.insert(place, bytes[place]),
        6 => drop(bytes.remove(place)),
        _ => bytes.truncate(place),
    }
}
