//! How the cost of a call grows with the capacity and with the calls of a run, at share 1 and 4 channels.
use crate::arrivals::{arrivals, Arrivals};
use crate::reports::reports;
use crate::workload::Workload;
use crate::{adds, times, Shape, OF_RUNS};

const CAPACITIES: [usize; 3] = [16, 64, 256];
const CALLS: [usize; 4] = [1_000, 10_000, 100_000, 1_000_000];

/// A row for each capacity and number of calls up to `most`.
pub fn print(most: Option<usize>, repetitions: usize) {
    println!(
        "| Capacity | Calls | Adds and deletes: Rust, ns | Port, ns | Arrivals that evict: Rust, ns | Port, ns | Reports: Rust, ns | Port, ns |"
    );
    println!("|---|---|---|---|---|---|---|---|");
    for capacity in CAPACITIES {
        for calls in CALLS {
            if most.is_none_or(|most| calls <= most) {
                row(capacity, calls, repetitions);
            }
        }
    }
    println!();
    println!(
        "Share 1, 4 channels. Times are for one call, the least of {repetitions} repetitions."
    );
    println!("{OF_RUNS}");
}

fn row(capacity: usize, calls: usize, repetitions: usize) {
    let shape = Shape {
        channels: 4,
        capacity,
        share: 1.0,
    };
    // each is dropped before the next is made: a million arrivals of capacity 256 have 2 gigabytes
    let timed = |workload: &dyn Fn() -> Workload| {
        let (rust, port) = times::least(&workload(), repetitions);
        format!("{rust:.0} | {port:.0}")
    };
    let adds = timed(&|| adds::adds_and_deletes(&shape, calls));
    let evicting = timed(&|| arrivals(Arrivals::Evicting, &shape, calls));
    let reports = timed(&|| reports(&shape, calls));
    println!("| {capacity} | {calls} | {adds} | {evicting} | {reports} |");
}
