//! What was compared, counted, and the least that has to be.
use command::{reached, HELD_TO};
use runs::generate::{Written, FEW};
use runs::{Call, Sums, MOST_CHANNELS};
use std::collections::BTreeMap;

/// How much has to be compared.
#[derive(Clone, Copy, Default)]
pub struct Least {
    pub runs: usize,
    /// Calls of sampled runs.
    pub sampled_calls: usize,
    pub report_rows: usize,
    /// Those whose computed sum is not the whole-number sum, and those of them at 9 channels.
    pub rounded: usize,
    pub rounded_at_nine: usize,
}

/// What was compared so far.
#[derive(Default)]
pub struct Tally {
    /// Calls that docs/LAYOUT.md shows.
    pub shown: usize,
    /// Chains of 256 leaves, on a small stack.
    pub chains: usize,
    runs: usize,
    sampled_runs: usize,
    calls: usize,
    sampled_calls: usize,
    /// How often each thing became of an arrival: not accepted, accepted, accepted and another evicted.
    arrivals: [usize; 3],
    report_rows: usize,
    sums: Sums,
    /// Runs of more than 8 channels.
    wide_runs: usize,
    pub damaged: usize,
    pub out_of_layout: usize,
    pub too_few: usize,
    pub answer_bytes: usize,
    /// How often each refusal was to be answered within a run.
    refusals: BTreeMap<u32, usize>,
    pub differing: usize,
}

impl Tally {
    /// Counts a whole run.
    pub fn add(&mut self, written: &Written) {
        let calls = written.answers.len() - 1;
        self.runs += 1;
        self.calls += calls;
        self.sums.add(&written.sums);
        let channels = written.run.making.channels;
        self.wide_runs += usize::from((FEW + 1..=MOST_CHANNELS).contains(&channels));
        if written.run.making.initial.is_some() {
            self.sampled_runs += 1;
            self.sampled_calls += calls;
        }
        for answer in &written.answers {
            *self.refusals.entry(answer[0]).or_insert(0) += 1;
        }
        for (call, answer) in written.run.calls.iter().zip(&written.answers[1..]) {
            match (call, answer[0]) {
                (Call::Arrival { .. }, 0) => self.arrivals[answer[1] as usize] += 1,
                (Call::Report { .. }, 0) => self.report_rows += answer[1] as usize,
                _ => {}
            }
        }
    }

    /// The counts in words, the last line last.
    pub fn print(&self) {
        println!("{HELD_TO}");
        println!(
            "docs/LAYOUT.md: {} calls of its worked runs; {} chains of leaves on a small stack",
            self.shown, self.chains
        );
        let met = self.refusals.iter().filter(|(refusal, _)| **refusal > 0);
        let met: Vec<String> = met.map(|(refusal, n)| format!("{refusal}: {n}")).collect();
        println!("refusals within runs: {}", met.join(", "));
        println!(
            "damaged: {} byte runs, of which {} out of the layout; too few bytes lent: {} times",
            self.damaged, self.out_of_layout, self.too_few
        );
        let [passed, started, evicting] = self.arrivals;
        println!(
            "sampled: {} runs, {} calls; arrivals: {started} accepted, {evicting} accepted and another \
             evicted, {passed} not accepted; report rows: {}",
            self.sampled_runs, self.sampled_calls, self.report_rows
        );
        println!(
            "more than {FEW} channels: {} runs; report rows with a rounded sum: {}, at 9 channels: {}; the furthest \
             lies {} from the whole-number sum",
            self.wide_runs, self.sums.rounded, self.sums.rounded_at_nine, self.sums.furthest
        );
        println!(
            "compare: {} runs, {} calls, {} answer bytes compared, {} differ",
            self.runs, self.calls, self.answer_bytes, self.differing
        );
    }

    /// An error if less was compared than has to be.
    pub fn reaches(&self, least: &Least) -> Result<(), String> {
        reached(self.runs, least.runs, "runs")?;
        if least.sampled_calls > 0 {
            reached(
                self.sampled_calls,
                least.sampled_calls,
                "calls of sampled runs",
            )?;
            reached(self.report_rows, least.report_rows, "report rows")?;
            reached(
                self.sums.rounded,
                least.rounded,
                "report rows with a rounded sum",
            )?;
            reached(
                self.sums.rounded_at_nine,
                least.rounded_at_nine,
                "report rows with a rounded sum at 9 channels",
            )?;
        }
        self.sums.all_right()
    }
}
