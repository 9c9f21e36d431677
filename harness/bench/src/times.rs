//! The time of one call: the Rust's, and the port's by the difference of two runs.
use crate::workload::{Bytes, Workload};
use port::Library;
use std::hint::black_box;
use std::time::Instant;

/// Fewer timed calls than this are gone through so often that there are as many.
const FEWEST: usize = 20_000;

/// Nanoseconds of a call: the Rust's and each library's, none where the library refuses the making.
pub struct Times {
    pub rust: f64,
    pub ports: Vec<Option<f64>>,
}

/// The least seconds of a library so far.
struct Least {
    library: Library,
    whole: f64,
    before: f64,
}

/// Times the Rust and the port that is linked in turn, and gives nanoseconds of both.
pub fn least(workload: &Workload, repetitions: usize) -> (f64, f64) {
    let times = of_libraries(workload, &[Library::linked()], repetitions);
    (times.rust, times.ports[0].expect("the making is in range"))
}

/// Times the Rust and these libraries in turn, so that whatever else the machine does meets all, and takes the least of the
/// repetitions. Stops unless a library's answers are those of the Rust, or refuse the making.
pub fn of_libraries(workload: &Workload, libraries: &[Library], repetitions: usize) -> Times {
    let turns = (FEWEST / workload.calls).max(1);
    let mut rust = f64::INFINITY;
    let mut ports: Vec<Option<Least>> = libraries.iter().map(|l| compared(workload, *l)).collect();
    for _ in 0..repetitions {
        rust = rust.min((0..turns).map(|_| (workload.rust)()).sum());
        for port in ports.iter_mut().flatten() {
            let seconds = |bytes| of_port(&port.library, bytes, turns);
            let (whole, before) = (seconds(&workload.whole), seconds(&workload.before));
            port.whole = port.whole.min(whole);
            port.before = port.before.min(before);
        }
    }
    let each = |seconds: f64| seconds * 1e9 / (turns * workload.calls) as f64;
    let of_port = |port: Least| each(port.whole - port.before);
    Times {
        rust: each(rust),
        ports: ports.into_iter().map(|port| port.map(of_port)).collect(),
    }
}

/// The library before it is timed, none where it refuses the making.
fn compared(workload: &Workload, library: Library) -> Option<Least> {
    let answered = |bytes: &Bytes| {
        let mut answers = vec![170; bytes.answers.len()];
        let returned = library.run(&bytes.run, &mut answers);
        if returned == 4 && answers[..4] != [0; 4] {
            return false;
        }
        assert!(
            returned == answers.len() && answers == bytes.answers,
            "the port's answers are not those of the Rust"
        );
        true
    };
    (answered(&workload.before) && answered(&workload.whole)).then_some(Least {
        library,
        whole: f64::INFINITY,
        before: f64::INFINITY,
    })
}

/// The seconds of so many calls of `sicklephlox_run`.
fn of_port(library: &Library, bytes: &Bytes, turns: usize) -> f64 {
    let mut answers = vec![170; bytes.answers.len()];
    let start = Instant::now();
    for _ in 0..turns {
        black_box(library.run(black_box(&bytes.run), black_box(&mut answers)));
    }
    start.elapsed().as_secs_f64()
}
