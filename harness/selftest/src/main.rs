//! Holds the oracle against document 01: its examples, the differences that docs/DIFFERENCES.md
//! lists, random runs of whole trees, byte runs, the worked runs of docs/LAYOUT.md, texts and archives. Stops
//! at the first thing that does not hold.
#![forbid(unsafe_code)]

mod archives_read;
mod as_made;
mod bare;
mod differences;
mod examples;
mod kept;
mod masses;
mod model;
mod refused_calls;
mod refused_makings;
mod replayed;
mod runs_read;
mod sampled;
mod texts_read;

fn main() {
    let shown = examples::run();
    println!("examples of document 01: {shown} hold");
    let listed = differences::run() + refused_makings::run() + refused_calls::run();
    println!("listed differences: {listed} seen in the Rust");
    let masses = masses::run();
    println!(
        "masses: {masses} entries and rows of docs/DIFFERENCES.md, the Rust's and the counted ones"
    );
    let draws = oracle::feed::seed17_draws();
    let steps = bare::run(400);
    println!("bare trees: 400 runs, {steps} calls, every tree as document 01 says");
    let steps = sampled::run(200);
    println!(
        "sampled trees: 200 runs, {steps} arrivals, every tree and sample as document 01 says"
    );
    let calls = runs_read::run(800);
    println!("byte runs: 800, {calls} calls, read back and answered as document 01 says");
    let calls = runs_read::worked_runs();
    println!("docs/LAYOUT.md: {calls} calls of its worked runs, answered as the page says");
    let in_form = texts_read::run(1_000);
    println!("texts: 1000, {in_form} in form, each read as it was made and every refusal met");
    let in_form = archives_read::run(600);
    println!("archives: 600, {in_form} in form, each read as it was made and every refusal met");
    let reached = oracle::feed::seed17_draws() > draws;
    assert!(!reached, "the branch seeded with 17 was reached");
}
