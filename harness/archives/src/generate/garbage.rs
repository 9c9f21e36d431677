//! Bytes that are no archive: any, with line feeds or without, from the start or after some rows.
use super::{whole, Given};
use oracle::Words;

const DIGITS: &[u8] = b"0123456789ABCDEF -\n\n";

pub fn given(words: &mut Words) -> Given {
    let mut bytes = match words.below(3) {
        0 => vec![],
        1 => whole::short(words).bytes(),
        _ => b"dimensions capacity cache16 initial16\n1 4 16 16\nop index rest\n".to_vec(),
    };
    let count = words.one_of(&[1, 20, 500, 9_000, 70_000]);
    let any = words.below(3);
    bytes.extend((0..count).map(|_| match any {
        0 => words.one_of(DIGITS),
        1 => words.word() as u8,
        _ => words.word() as u8 | 0x80,
    }));
    Given::untold("garbage", bytes)
}
