//! Masses in what a program prints, one less as the Rust has them where a leaf has more than one copy.
use oracle::Words;

/// Which lines have the mass.
#[derive(Clone, Copy, Debug)]
pub enum Column {
    /// A leaf's of the printed tree.
    Leaf,
    /// A branch's of it.
    Branch,
    /// A report's row, where there are reports.
    Row,
}

impl Column {
    /// The number in this column of a line, as one of its fields, if the line has it and it is above 1.
    fn of(self, line: &str) -> Option<(usize, u32)> {
        let fields: Vec<&str> = line.split(' ').collect();
        let place = match (self, &fields[..]) {
            (Column::Leaf, [_, "-", _, _, _, _]) => 5,
            (Column::Branch, [_, dimension, _, _, _, _]) if *dimension != "-" => 5,
            (Column::Row, ["row", _, _, _, _]) => 3,
            _ => return None,
        };
        // in a line of names it is no number
        let mass = fields[place].parse().ok()?;
        (mass > 1).then_some((place, mass))
    }
}

/// Makes one of the masses in the column one less; false where there is none to make so.
pub fn lessen(column: Column, printed: &mut Vec<u8>, words: &mut Words) -> bool {
    let text = String::from_utf8_lossy(printed).into_owned();
    let mut lines: Vec<String> = text.lines().map(str::to_string).collect();
    let having = |(n, line): (usize, &String)| column.of(line).map(|found| (n, found));
    let having: Vec<(usize, (usize, u32))> = lines.iter().enumerate().filter_map(having).collect();
    if having.is_empty() {
        return false;
    }
    let (n, (place, mass)) = words.one_of(&having);
    let less = (mass - 1).to_string();
    let mut fields: Vec<&str> = lines[n].split(' ').collect();
    fields[place] = &less;
    lines[n] = fields.join(" ");
    *printed = (lines.join("\n") + "\n").into_bytes();
    true
}
