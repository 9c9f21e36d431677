//! Texts that fill a tree in few bytes, as `outward` of the runs says; a tree of 256 leaves then fits a
//! text.
use super::whole::shortened;
use crate::text::{Making, Row, Text};
use oracle::Words;
use runs::generate::outward;
use runs::Driver;

/// A text in the making, with the tree as its rows leave it.
struct Writer<'a> {
    words: &'a mut Words,
    driver: Driver,
    rows: Vec<Row>,
    dimensions: usize,
}

/// A text of at most `room` bytes that fills its tree, then stirs it, if there is room for that.
pub fn text(words: &mut Words, room: usize) -> Text {
    let making = Making {
        dimensions: words.one_of(&[1, 1, 2, 8]),
        capacity: words.one_of(&[2, 3, 17, 64, 100, 128, 255, 256, 256, 256]),
        cache16: words.below(17) as u32,
    };
    let mut writer = Writer {
        dimensions: making.dimensions as usize,
        driver: Driver::make(&making.of_tree()).expect("in range"),
        words,
        rows: vec![],
    };
    let capacity = making.capacity;
    writer.grow(capacity);
    for _ in 0..writer.words.below(capacity as usize) {
        writer.stir(capacity);
    }
    let rows = writer.rows;
    shortened(Text { making, rows }, room)
}

impl Writer<'_> {
    fn push(&mut self, row: Row) {
        self.driver.call(&row.call());
        self.rows.push(row);
    }

    /// Writes and adds as many readings as the tree takes, at either end of those before.
    fn grow(&mut self, capacity: u32) {
        let one_side = self.words.once_in(2);
        for (index, reading) in (0..).zip(outward(self.words, capacity, one_side)) {
            self.put(index, reading.x);
            self.add(index, reading.word);
        }
    }

    fn put(&mut self, index: u32, x: i32) {
        let mut coordinates = vec![7; self.dimensions];
        coordinates[0] = x;
        self.push(Row::Put { index, coordinates });
    }

    fn add(&mut self, index: u32, word: u64) {
        let words = vec![word; self.driver.takes(index)];
        self.push(Row::Add { index, words });
    }

    /// A delete, a copy more, a reading written again, or a reading that may find the tree full.
    fn stir(&mut self, capacity: u32) {
        let index = self.words.below(capacity as usize + 2) as u32;
        let word = self.words.word();
        match self.words.below(8) {
            0..=2 => self.push(Row::Delete { index }),
            3 | 4 => self.add(index, word),
            5 => {
                let x = self.words.between(-4_000, 4_000);
                self.put(index, x);
            }
            6 => {
                let words = vec![word; self.words.below(4)];
                self.push(Row::Add { index, words });
            }
            _ => {
                let x = self.words.between(-4_000, 4_000);
                self.put(capacity, x);
                self.add(capacity, word);
            }
        }
    }
}
