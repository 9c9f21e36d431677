//! A text in form, of whichever program: a making under its names, and op rows under theirs, each on a
//! line of its own.

/// The names of the second block.
pub const OP_NAMES: &str = "op index rest";

/// The making, which is the first block.
pub trait Head {
    const NAMES: &'static str;

    /// Its numbers, in the order of the names.
    fn numbers(&self) -> Vec<u32>;
}

/// An op row.
pub trait OpRow {
    /// The row as it is written, without its line feed.
    fn line(&self) -> String;

    /// The index of the reading that it names, if it names one.
    fn index(&self) -> Option<u32>;
}

#[derive(Clone, Debug, PartialEq)]
pub struct InForm<M, R> {
    pub making: M,
    pub rows: Vec<R>,
}

impl<M: Head, R: OpRow> InForm<M, R> {
    /// All lines, without their line feeds: names, making, names, op rows.
    pub fn lines(&self) -> Vec<Vec<u8>> {
        let numbers = self.making.numbers();
        let numbers: Vec<String> = numbers.iter().map(u32::to_string).collect();
        let before = [M::NAMES.into(), numbers.join(" "), OP_NAMES.into()];
        let lines = before.into_iter().chain(self.rows.iter().map(R::line));
        lines.map(String::into_bytes).collect()
    }

    pub fn bytes(&self) -> Vec<u8> {
        joined(&self.lines())
    }
}

/// The lines, each with a line feed after it.
pub fn joined(lines: &[Vec<u8>]) -> Vec<u8> {
    let mut bytes = Vec::new();
    for line in lines {
        bytes.extend_from_slice(line);
        bytes.push(b'\n');
    }
    bytes
}

/// Coordinates as fields of a row, each with one space before it.
pub fn coordinate_fields(coordinates: &[i32]) -> String {
    coordinates.iter().map(|x| format!(" {x}")).collect()
}

/// Words as fields of a row, each with one space before it.
pub fn word_fields(words: &[u64]) -> String {
    words.iter().map(|word| format!(" {word:016X}")).collect()
}

/// The coordinates as a call has them. One beyond 2^24 is rounded here, and is too large before and after.
pub fn coordinate_bits(coordinates: &[i32]) -> Vec<u32> {
    let bits = |x: &i32| (*x as f32).to_bits();
    coordinates.iter().map(bits).collect()
}

/// The share that so many sixteenths are. It is exact: a number of nine digits and its sixteenth are f64 numbers.
pub fn share(sixteenths: u32) -> f64 {
    f64::from(sixteenths) / 16.0
}
