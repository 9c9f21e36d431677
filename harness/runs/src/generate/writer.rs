//! Writes a run call by call while there is room, in stretches that fill the tree, stir it or empty
//! it, with sweeps between that ask for everything a tree has.
use super::setting::Setting;
use super::steps::{self, Mode};
use super::{reports, Room, Written};
use crate::layout::{Call, Run};
use crate::Driver;
use oracle::Words;

/// A run in the making.
pub struct Writer<'a> {
    pub words: &'a mut Words,
    pub setting: Setting,
    pub driver: Driver,
    /// How many new readings were added in the pool's order.
    pub turn: usize,
    written: Written,
    left: Room,
}

/// Writes a whole run in stretches.
pub fn write(setting: Setting, words: &mut Words, room: Room) -> Written {
    write_by(setting, words, room, |writer| writer.stretches())
}

/// Writes a whole run by these calls. A making that took another's place is followed by some others; where it is refused it leaves
/// them unanswered.
pub fn write_by(
    setting: Setting,
    words: &mut Words,
    room: Room,
    calls: impl FnOnce(&mut Writer),
) -> Written {
    let making = setting.making;
    if setting.spoilt {
        let calls = steps::unanswered(&setting, words);
        return Written::of(Run { making, calls });
    }
    let written = Written::of(Run {
        making,
        calls: vec![],
    });
    let left = Room {
        run: room.run - written.run.run_bytes(),
        answers: room.answers - 4,
    };
    let mut writer = Writer {
        words,
        driver: Driver::make(&making).expect("in range"),
        setting,
        turn: 0,
        written,
        left,
    };
    calls(&mut writer);
    let sums = writer.driver.sums();
    Written {
        sums,
        ..writer.written
    }
}

impl Writer<'_> {
    /// Makes the call where there is room for it and its answer.
    pub fn call(&mut self, call: Call) {
        let (run, answer) = (call.run_bytes(), self.answer_bytes(&call));
        if run > self.left.run || answer > self.left.answers {
            return;
        }
        self.left.run -= run;
        self.left.answers -= answer;
        self.written.answers.push(self.driver.call(&call));
        self.written.run.calls.push(call);
    }

    /// The room that is left.
    pub fn left(&self) -> Room {
        self.left
    }

    fn answer_bytes(&self, call: &Call) -> usize {
        call.answer_bytes(&self.setting.making)
    }

    fn stretches(&mut self) {
        let kept = self.kept_for_sweep();
        self.report_now_and_then();
        self.first_puts();
        let capacity = self.driver.capacity();
        let stretches = 2 + self.words.below(4);
        for n in 0..stretches {
            let mode = match n {
                0 => Mode::Fill,
                _ => self.words.one_of(&Mode::ALL),
            };
            let steps = match mode {
                Mode::Fill => capacity * 5 / 4 + self.words.below(capacity / 2 + 8),
                Mode::Stir => 10 + self.words.below(capacity + 30),
                Mode::Empty => self.words.below(capacity + 12),
            };
            for _ in 0..steps {
                if self.left.run < kept.run || self.left.answers < kept.answers {
                    break;
                }
                steps::step(self, mode);
                self.report_now_and_then();
            }
            if self.left.answers > 3 * kept.answers && self.left.run > 3 * kept.run {
                self.sweep();
            }
        }
        self.sweep();
    }

    /// A report after one step in so many, where the run has reports.
    pub fn report_now_and_then(&mut self) {
        if let Some(steps) = self.setting.reports {
            if self.words.once_in(steps) {
                reports::report(self);
            }
        }
    }

    /// What the last sweep needs, but no more than half of all room.
    pub fn kept_for_sweep(&self) -> Room {
        let capacity = self.driver.capacity();
        let id = 0;
        let asked = [Call::Branch { id }, Call::Box { id }, Call::Copies { id }];
        let run: usize = asked.iter().map(Call::run_bytes).sum();
        let answers: usize = asked.iter().map(|call| self.answer_bytes(call)).sum();
        Room {
            run: (run * capacity).min(self.left.run / 2),
            answers: (answers * capacity).min(self.left.answers / 2),
        }
    }

    /// Writes the pool; some runs leave a few indices unwritten.
    pub fn first_puts(&mut self) {
        let skip = self.words.one_of(&[9, 30, usize::MAX]);
        for n in 0..self.setting.pool.len() {
            let index = self.setting.pool[n];
            if n % skip != skip - 1 {
                steps::good_put(self, index);
            }
        }
    }

    /// A branch and a box query for every id below the capacity, and a copies query for every leaf.
    /// What the tree has comes first, so that a short room ends among ids that it hasn't.
    pub fn sweep(&mut self) {
        let capacity = self.driver.capacity();
        let ids = self.driver.ids().clone();
        let (branches, others): (Vec<usize>, Vec<usize>) =
            (0..capacity).partition(|id| ids.contains(id));
        for id in &branches {
            self.call(Call::Branch { id: *id as u32 });
        }
        for id in ids.range(capacity..) {
            self.call(Call::Copies { id: *id as u32 });
        }
        for id in branches {
            self.call(Call::Box { id: id as u32 });
        }
        for id in others {
            self.call(Call::Branch { id: id as u32 });
            self.call(Call::Box { id: id as u32 });
        }
    }
}
