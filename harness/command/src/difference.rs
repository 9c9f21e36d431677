//! A difference in words: the text, what is expected, what is printed, and the first line in which
//! the two part.
use crate::Printed;

/// No more of a text or an output is shown; the comparing programs write a whole text by its number.
const MOST_SHOWN: usize = 6_000;

pub fn difference(name: &str, text: &[u8], expected: &[u8], got: &Printed) -> String {
    let mut shown = format!("{name}, {} bytes:\n{}", text.len(), lines(text));
    match got.status {
        Some(0) => {}
        Some(status) => shown += &format!("the program exited with the status {status}\n"),
        None => shown += "a signal ended the program\n",
    }
    shown += &format!("expected, {} bytes:\n{}", expected.len(), lines(expected));
    shown += &format!("printed, {} bytes:\n{}", got.bytes.len(), lines(&got.bytes));
    match first_difference(expected, &got.bytes) {
        None => shown + "both are equal",
        Some((line, ours, theirs)) => {
            shown + &format!("line {line}: expected {ours}, printed {theirs}")
        }
    }
}

/// The first line that differs, from 1, and both of it.
fn first_difference(expected: &[u8], got: &[u8]) -> Option<(usize, String, String)> {
    let (mut ours, mut theirs) = (split(expected), split(got));
    for line in 1.. {
        match (ours.next(), theirs.next()) {
            (None, None) => return None,
            (a, b) if a == b => {}
            (a, b) => return Some((line, told(a), told(b))),
        }
    }
    None
}

fn split(bytes: &[u8]) -> impl Iterator<Item = &[u8]> {
    bytes.split_inclusive(|byte| *byte == b'\n')
}

fn told(line: Option<&[u8]>) -> String {
    match line {
        None => "nothing".into(),
        Some(line) => format!("\"{}\"", line.escape_ascii()),
    }
}

/// Lines with everything but letters, digits and signs as escapes, the line feeds too.
fn lines(bytes: &[u8]) -> String {
    let shown = &bytes[..bytes.len().min(MOST_SHOWN)];
    let mut text: String = split(shown)
        .map(|line| format!("  {}\n", line.escape_ascii()))
        .collect();
    if shown.len() < bytes.len() {
        text += &format!("  and {} bytes more\n", bytes.len() - shown.len());
    }
    text
}
