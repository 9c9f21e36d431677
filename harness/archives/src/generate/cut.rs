//! Archives cut short at any byte: those before the making fail with it, those at a line's end are in form,
//! and of all others the last row is bad.
use super::Given;
use crate::archive::Archive;
use oracle::Words;

pub fn given(mut archive: Archive, words: &mut Words) -> Given {
    let mut bytes = archive.bytes();
    let anywhere = words.below(bytes.len() + 1);
    let after_line = 1 + bytes[..anywhere]
        .iter()
        .rposition(|byte| *byte == b'\n')
        .unwrap_or(0);
    let near = words.one_of(&[after_line, after_line - 1, after_line + 1]);
    let place = words.one_of(&[anywhere, anywhere, near]).min(bytes.len());
    bytes.truncate(place);
    let lines = bytes.iter().filter(|byte| **byte == b'\n').count();
    let known = match lines.checked_sub(3) {
        None => Err(0),
        Some(rows) if bytes.ends_with(b"\n") => {
            archive.rows.truncate(rows);
            Ok(archive)
        }
        Some(rows) => Err(rows + 1),
    };
    Given {
        kind: "cut short",
        bytes,
        known: Some(known),
    }
}
