//! Byte runs against document 01: copies are counted from calls and answers alone, a sample is kept by
//! document 01's rule, and the tree, the sample and each report are held against them.
use crate::kept::Kept;
use crate::model::{check_tree, count_down, count_up, defined_report, value, Counts, Value};
use oracle::{Row, Table};
use runs::generate::Written;
use runs::{Answer, Call, Driver, ROW_NUMBERS};

/// What the calls so far come to by document 01.
struct Model {
    points: Vec<Option<Value>>,
    counts: Counts,
    sample: Kept,
}

/// Replays the run and holds what is answered, and the tree after the last call, against the model.
pub fn replay(written: &Written) {
    let making = &written.run.making;
    let Ok(mut driver) = Driver::make(making) else {
        return assert_eq!(written.answers.len(), 1);
    };
    let initial = making.initial.map_or(0.0, f64::from_bits);
    let mut model = Model {
        points: vec![None; Table::SIZE],
        counts: Counts::new(),
        sample: Kept::new(driver.capacity(), initial),
    };
    for (call, answer) in written.run.calls.iter().zip(&written.answers[1..]) {
        assert_eq!(driver.call(call), *answer);
        if answer[0] == 0 {
            model.take(call, answer, &driver);
        }
    }
    let (tree, table) = (driver.tree(), driver.table());
    let share = f64::from_bits(making.share);
    check_tree(tree, table, &model.counts, driver.capacity(), share);
}

impl Model {
    /// What an accepted call changes, and what it must have answered.
    fn take(&mut self, call: &Call, answer: &Answer, driver: &Driver) {
        match call {
            Call::Put { index, coordinates } => {
                self.points[*index as usize] = Some(value(&reading(coordinates)));
            }
            Call::Add { index, .. } => self.up(*index),
            Call::Delete { index } => self.down(*index),
            Call::Arrival {
                index,
                weight,
                start,
                ..
            } => {
                let [_, what, leaf, evicted] = answer[..] else {
                    panic!("four numbers");
                };
                let weight = f32::from_bits(*weight);
                self.sample.arrive(weight, *start, what, leaf, evicted);
                if what == 2 {
                    self.down(evicted);
                }
                if what > 0 {
                    assert_eq!(self.point(leaf), self.point(*index));
                    self.up(*index);
                }
            }
            Call::Report { coordinates, .. } => {
                let defined = defined_report(driver.tree(), driver.table(), &reading(coordinates));
                check_rows(&defined, answer);
            }
            Call::Sample => self.sample.check(answer),
            Call::Copies { .. } | Call::Branch { .. } | Call::Box { .. } => {}
        }
    }

    fn up(&mut self, index: u32) {
        let value = self.point(index);
        count_up(&mut self.counts, value);
    }

    fn down(&mut self, index: u32) {
        let value = self.point(index);
        count_down(&mut self.counts, value);
    }

    /// The point kept for an index.
    fn point(&self, index: u32) -> Value {
        self.points[index as usize].clone().expect("put")
    }
}

fn reading(coordinates: &[u32]) -> Vec<f32> {
    coordinates.iter().map(|x| f32::from_bits(*x)).collect()
}

/// The rows written are the defined ones, those beyond are 0.
fn check_rows(defined: &[Row], answer: &Answer) {
    assert_eq!(answer[1] as usize, defined.len());
    let mut rows = answer[2..].chunks(ROW_NUMBERS);
    for row in defined {
        let [id, depth, mass] = [row.id, row.depth, row.mass].map(|number| number as u32);
        let bits = row.probability.to_bits();
        let halves = [bits as u32, (bits >> 32) as u32];
        let lent = rows.next().expect("no more rows than lent");
        assert_eq!(lent, [id, depth, mass, halves[0], halves[1]]);
    }
    assert!(rows.flatten().all(|number| *number == 0));
}
