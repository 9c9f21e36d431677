//! Bytes written as hexadecimal digits.

/// The bytes, two digits each; blanks between digits count for nothing.
pub fn bytes(text: &str) -> Result<Vec<u8>, String> {
    let digits: Vec<char> = text.chars().filter(|c| !c.is_whitespace()).collect();
    let byte = |two: &[char]| match *two {
        [high, low] => Some((16 * high.to_digit(16)? + low.to_digit(16)?) as u8),
        _ => None,
    };
    let no_byte = |two: &[char]| format!("{} is no byte", two.iter().collect::<String>());
    let read = |two| byte(two).ok_or_else(|| no_byte(two));
    digits.chunks(2).map(read).collect()
}
