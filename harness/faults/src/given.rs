//! A file of generated runs with the answers of the unchanged Rust.
use oracle::Words;
use runs::generate::{self, Room, Widths};
use runs::{answers, bytes_of, decode};
use std::panic::{catch_unwind, AssertUnwindSafe};

const SEED: u64 = 0xFA01_75ED;
const RUNS: usize = 400;

/// The runs as `compare` draws them: two sampled ones to each bare one with reports.
pub fn draw() -> Vec<u8> {
    let mut file = Vec::new();
    for n in 0..RUNS {
        let mut words = Words::new(SEED + n as u64);
        let size = if n % 8 == 0 { 60_000 } else { 12_000 };
        let room = Room {
            run: size,
            answers: size,
        };
        let written = match n % 3 {
            0 => generate::reported(&mut words, room, Widths::All),
            _ => generate::sampled(&mut words, room, Widths::All),
        };
        for bytes in [written.run.encode(), bytes_of(&written.answers)] {
            file.extend((bytes.len() as u32).to_le_bytes());
            file.extend(bytes);
        }
    }
    file
}

/// How many runs of the file get other answers here, and how many stop because what the driver knows of
/// the Rust does not hold.
pub struct Answered {
    pub runs: usize,
    pub differing: usize,
    pub stopped: usize,
}

pub fn answer(file: &[u8]) -> Answered {
    std::panic::set_hook(Box::new(|_| {}));
    let mut rest = file;
    let mut answered = Answered {
        runs: 0,
        differing: 0,
        stopped: 0,
    };
    while !rest.is_empty() {
        let (run, expected) = (piece(&mut rest), piece(&mut rest));
        let run = decode(run).expect("a run");
        let now = catch_unwind(AssertUnwindSafe(|| bytes_of(&answers(&run))));
        answered.runs += 1;
        match now {
            Ok(now) => answered.differing += usize::from(now != expected),
            Err(_) => answered.stopped += 1,
        }
    }
    answered
}

fn piece<'a>(rest: &mut &'a [u8]) -> &'a [u8] {
    let (length, after) = rest.split_first_chunk().expect("a length");
    let (piece, after) = after.split_at(u32::from_le_bytes(*length) as usize);
    *rest = after;
    piece
}
