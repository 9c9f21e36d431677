//! Words from a key: the port's, and those of plain loops of the same cipher without vector instructions. All of them
//! are compared with `harness/chacha20` before anything is timed.
use crate::plain::{Fill, OF_C, OF_RUST};
use crate::SEED;
use chacha20::{key_of_seed, KEY_BYTES, WORD_BYTES};
use port::words_of_port;
use std::hint::black_box;
use std::time::Instant;

pub const NAME: &str = "Words from a key";

/// Words of a call: a block, what a keyed row of an archive stands for, and a long list.
const LENGTHS: [usize; 3] = [8, 257, 65_536];

/// So many words are timed in a repetition.
const TIMED: usize = 1 << 19;

/// The number of the first word that is timed. Every call goes on where the one before it ended.
const FIRST: u64 = 1 << 33;

const OF_PORT: Fill = |key, start, words| {
    let returned = words_of_port(key, start, words);
    assert_eq!(returned, WORD_BYTES * words.len());
};

/// A row for each length of a call.
pub fn print(repetitions: usize) {
    println!("{NAME}:\n");
    println!("| Words a call | Port, ns | Plain C, ns | Plain Rust, ns | Port / C | Port / Rust |");
    println!("|---|---|---|---|---|---|");
    for length in LENGTHS {
        row(length, repetitions);
    }
    println!();
    println!("Times are for one word, the least of {repetitions} repetitions of {TIMED} words.");
    println!("The plain loops are compiled without vector instructions.");
    if OF_C.is_none() {
        println!("No C compiler was at hand, so there is no plain C loop.");
    }
    println!();
}

fn row(length: usize, repetitions: usize) {
    let key = key_of_seed(SEED);
    let sources = [Some(OF_PORT), OF_C, Some(OF_RUST)];
    for source in sources.iter().flatten() {
        compare(*source, &key, length);
    }
    let mut least = [f64::INFINITY; 3];
    // in turn, so that whatever else the machine does meets all
    for _ in 0..repetitions {
        for (least, source) in least.iter_mut().zip(sources) {
            let seconds = source.map(|source| seconds(source, &key, length));
            *least = seconds.map_or(f64::NAN, |seconds| least.min(seconds));
        }
    }
    let [port, c, rust] = least.map(|seconds| seconds * 1e9 / (calls(length) * length) as f64);
    let numbers = [port, c, rust, port / c, port / rust].map(told);
    println!("| {length} | {} |", numbers.join(" | "));
}

/// Two digits after the point; a dash where there is no number.
fn told(number: f64) -> String {
    match number.is_nan() {
        true => "-".into(),
        false => format!("{number:.2}"),
    }
}

fn calls(length: usize) -> usize {
    TIMED / length
}

fn start(call: usize, length: usize) -> u64 {
    FIRST + (call * length) as u64
}

fn seconds(source: Fill, key: &[u8; KEY_BYTES], length: usize) -> f64 {
    let mut words = vec![0; length];
    let from = Instant::now();
    for call in 0..calls(length) {
        source(black_box(key), start(call, length), black_box(&mut words));
    }
    from.elapsed().as_secs_f64()
}

fn compare(source: Fill, key: &[u8; KEY_BYTES], length: usize) {
    let (mut expected, mut words) = (vec![0; length], vec![0; length]);
    for call in 0..calls(length) {
        chacha20::fill(key, start(call, length), &mut expected);
        source(key, start(call, length), &mut words);
        assert!(words == expected, "the words are not those of the key");
    }
}
