//! Two libraries of the port timed in turn with the Rust: one as it was before and one as it is now.
use crate::times::of_libraries;
use crate::{named, shapes, tables};
use port::Library;

pub struct Both([Library; 2]);

impl Both {
    /// Shared libraries; `bench.sh` makes them of static ones.
    pub fn open(before: &str, now: &str) -> Result<Self, String> {
        Ok(Both([Library::open(before)?, Library::open(now)?]))
    }

    /// A table for each kind of call whose name has the word.
    pub fn print(&self, only: &str, operations: usize, repetitions: usize) {
        for (name, _, make) in tables().into_iter().filter(|table| named(table.0, only)) {
            println!("{name}:\n");
            println!("| Share | Channels | Rust, ns | Before, ns | Now, ns | Now / before | Now / Rust |");
            println!("|---|---|---|---|---|---|---|");
            for shape in shapes() {
                let times = of_libraries(&make(&shape, operations), &self.0, repetitions);
                let rust = times.rust;
                let [before, now] = [times.ports[0], times.ports[1]];
                let cells = [
                    Some(format!("{rust:.0}")),
                    before.map(|before| format!("{before:.0}")),
                    now.map(|now| format!("{now:.0}")),
                    before
                        .zip(now)
                        .map(|(before, now)| format!("{:.2}", now / before)),
                    now.map(|now| format!("{:.2}", now / rust)),
                ];
                let cells = cells.map(|cell| cell.unwrap_or("-".into())).join(" | ");
                println!("| {} | {} | {cells} |", shape.share, shape.channels);
            }
            println!();
        }
        println!("{operations} calls a run; times are for one call, the least of {repetitions} repetitions, all three in turn.");
    }
}
