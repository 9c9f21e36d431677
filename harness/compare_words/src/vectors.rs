//! The RFC's vectors, run through what the port is held to: every line of crates/rfc8439/stdin, and the quarter-round
//! example of section 2.1.1.
use chacha20::{block, quarter_round};

const VECTORS: &str = include_str!(concat!(
    env!("CARGO_MANIFEST_DIR"),
    "/../../crates/rfc8439/stdin"
));

/// Section 2.1.1, before and after.
const BEFORE: [u32; 4] = [0x1111_1111, 0x0102_0304, 0x9B8D_6F43, 0x0123_4567];
const AFTER: [u32; 4] = [0xEA2A_92F4, 0xCB1C_F8CE, 0x4581_472E, 0x5881_C4BB];

/// An error if one does not hold.
pub fn hold() -> Result<(), String> {
    if quarter_round(BEFORE) != AFTER {
        return Err("the quarter round of section 2.1.1 does not hold".into());
    }
    let mut blocks = 0;
    for line in VECTORS.lines() {
        blocks += 1;
        let held = holds(line).ok_or(format!("vector {blocks} is no vector"))?;
        if !held {
            return Err(format!("vector {blocks} does not hold: {line}"));
        }
    }
    println!("RFC 8439: {blocks} blocks and the quarter round of section 2.1.1 hold");
    command::reached(blocks, 1, "blocks")
}

/// Whether the block of a line is that of its key, counter and nonce; none where the line is out of form.
fn holds(line: &str) -> Option<bool> {
    let fields: Vec<&str> = line.split(' ').collect();
    let [key, counter, nonce, expected] = fields[..] else {
        return None;
    };
    let counter = u32::from_be_bytes(bytes(counter)?);
    let made = block(&bytes(key)?, counter, &bytes(nonce)?);
    Some(made == bytes(expected)?)
}

/// So many bytes by two upper-case hexadecimal digits each.
fn bytes<const N: usize>(digits: &str) -> Option<[u8; N]> {
    let all = |digit: u8| digit.is_ascii_digit() || (b'A'..=b'F').contains(&digit);
    if digits.len() != 2 * N || !digits.bytes().all(all) {
        return None;
    }
    let byte = |n: usize| u8::from_str_radix(&digits[2 * n..][..2], 16).ok();
    let bytes: Option<Vec<u8>> = (0..N).map(byte).collect();
    bytes?.try_into().ok()
}
