//! Holds what the program prints for each archive against what it must, and the port's byte run of the same calls.
use crate::{of_port, REGROW};
use archives::generate::{nth, Given, FIRST_DRAWN};
use archives::{outcome, End, Outcome};
use command::{reached, Pieces, Program, Tally};
use oracle::Words;
use runs::{Call, Sums};

/// What was compared so far.
#[derive(Default)]
pub struct Judge {
    tally: Tally,
    /// Rows carried out, and how many of them are arrivals.
    rows: usize,
    arrivals: usize,
    most_rows: usize,
    /// Arrivals with their words by a key.
    keyed: usize,
    /// Arrivals accepted, and how many of those evict.
    accepted: usize,
    evicting: usize,
    report_rows: usize,
    sums: Sums,
    kept: usize,
    nodes: usize,
    bytes: usize,
    of_port: usize,
}

impl command::Judge for Judge {
    /// Every third archive is written to the program in pieces, always the same.
    fn look(&mut self, n: usize, seed: u64, program: &Program) -> Result<(), String> {
        let given = nth(seed, n);
        let name = format!("archive {n} of the seed {seed}, {}", given.kind);
        let outcome = outcome(&given.bytes);
        let expected = outcome.bytes();
        self.count(&given, &outcome, expected.len());
        let pieces = match n % 3 {
            0 => pieces(given.bytes.len(), n),
            _ => Pieces::Equal(1),
        };
        let held = self
            .tally
            .hold(&name, &given.bytes, &expected, program, &pieces);
        held.map_err(|why| format!("{name}: {why}"))?;
        self.hold_port(&name, &outcome, &expected);
        Ok(())
    }

    fn finish(&self, asked: usize) -> Result<(), String> {
        self.tell();
        self.tally.finish(&REGROW, asked)?;
        // only of more are all the lists among them
        if asked < FIRST_DRAWN {
            return Ok(());
        }
        reached(self.arrivals, ARRIVALS + ARRIVALS_EACH * asked, "arrivals")?;
        reached(self.keyed, KEYED + KEYED_EACH * asked, "keyed arrivals")?;
        reached(self.report_rows, REPORT_ROWS_EACH * asked, "report rows")?;
        reached(
            self.sums.rounded,
            asked / ARCHIVES_EACH_ROUNDED,
            "report rows with a rounded sum",
        )?;
        self.sums.all_right()
    }
}

impl Judge {
    /// Holds the port's byte run of the archive's calls, if there is one, against the same.
    fn hold_port(&mut self, name: &str, outcome: &Outcome, expected: &[u8]) {
        let Some(asked) = of_port::asked(outcome) else {
            return;
        };
        self.of_port += 1;
        let answers = of_port::answers(&asked, self.of_port);
        let held = answers.and_then(|answers| of_port::hold(&asked, &answers, expected));
        if let Err(why) = held {
            self.tally
                .differ(format!("{name}, the port's byte run: {why}"));
        }
    }

    fn count(&mut self, given: &Given, outcome: &Outcome, output_bytes: usize) {
        let (in_form, refusals) = (outcome.in_form(), outcome.refusals());
        self.tally
            .count(given.kind, in_form, &refusals, output_bytes);
        self.bytes += given.bytes.len();
        let Outcome::Grown(grown) = outcome else {
            return;
        };
        self.rows += grown.calls.len();
        self.most_rows = self.most_rows.max(grown.calls.len());
        self.keyed += grown.keyed;
        self.sums.add(&grown.sums);
        for (call, answer) in grown.calls.iter().zip(&grown.answers) {
            match (call, &answer[..]) {
                (Some(Call::Arrival { .. }), [_, became, ..]) => {
                    self.arrivals += 1;
                    self.accepted += usize::from(*became > 0);
                    self.evicting += usize::from(*became > 1);
                }
                (Some(Call::Report { .. }), [_, rows, ..]) => self.report_rows += *rows as usize,
                _ => {}
            }
        }
        if let End::Kept { sample, list } = &grown.end {
            self.kept += sample.len();
            self.nodes += list.lines().count() - 1;
        }
    }

    fn tell(&self) {
        let tally = &self.tally;
        tally.print();
        println!(
            "rows: {}, the longest archive {}; {} arrivals, {} accepted, {} of them evicting; {} report rows",
            self.rows, self.most_rows, self.arrivals, self.accepted, self.evicting, self.report_rows
        );
        println!("keyed: {} arrivals", self.keyed);
        println!(
            "report rows with a rounded sum: {}, at 9 channels: {}",
            self.sums.rounded, self.sums.rounded_at_nine
        );
        println!(
            "printed: {} bytes for {}; {} kept arrivals, {} nodes",
            tally.output_bytes, self.bytes, self.kept, self.nodes
        );
        println!(
            "archives: {} archives compared, {} of them in form, {} of them with the port's byte run too, {} differ",
            tally.compared, tally.in_form, self.of_port, tally.differing
        );
    }
}

/// The lists have so many arrivals at least, and drawn archives so many each, and report rows, on the average.
const ARRIVALS: usize = 100_000;
const ARRIVALS_EACH: usize = 40;
const KEYED: usize = 6_000;
const KEYED_EACH: usize = 5;
const REPORT_ROWS_EACH: usize = 30;
/// To each row with a rounded sum there may be so many archives.
const ARCHIVES_EACH_ROUNDED: usize = 5;

/// Pieces of odd sizes, single bytes where the archive is short, and no more than a few hundred in all.
fn pieces(bytes: usize, turn: usize) -> Pieces {
    let mut words = Words::new(turn as u64);
    let more = bytes / 400;
    let sizes = [
        1, 2, 3, 7, 16, 63, 64, 65, 4_095, 4_096, 4_097, 8_191, 8_192, 8_193,
    ];
    let count = 1 + words.below(5);
    let sizes = (0..count).map(|_| words.one_of(&sizes) + more);
    Pieces::Sizes {
        sizes: sizes.collect(),
        pauses: words.one_of(&[0, 1, 3, 6]),
    }
}
