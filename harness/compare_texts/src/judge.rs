//! Holds what the program prints for each text against what it must.
use crate::TREELIST;
use command::{Pieces, Program, Tally};
use texts::generate::nth;
use texts::{outcome, Outcome};

/// What was compared so far.
#[derive(Default)]
pub struct Judge {
    tally: Tally,
    nodes: usize,
    largest_tree: usize,
    largest_output: usize,
}

impl command::Judge for Judge {
    /// Every third text is written to the program in pieces.
    fn look(&mut self, n: usize, seed: u64, program: &Program) -> Result<(), String> {
        let name = format!("text {n} of the seed {seed}");
        let given = nth(seed, n);
        let outcome = outcome(&given.bytes);
        let expected = outcome.bytes();
        self.count(given.kind, &outcome, expected.len());
        let pieces = Pieces::Equal([1, 1, 5][self.tally.compared % 3]);
        let shown = format!("{name}, {}", given.kind);
        let held = self
            .tally
            .hold(&shown, &given.bytes, &expected, program, &pieces);
        held.map_err(|why| format!("{name}: {why}"))
    }

    fn finish(&self, asked: usize) -> Result<(), String> {
        let tally = &self.tally;
        tally.print();
        println!(
            "printed: {} bytes, the longest output {}; {} nodes, the largest tree {}",
            tally.output_bytes, self.largest_output, self.nodes, self.largest_tree
        );
        println!(
            "texts: {} texts compared, {} of them in form, {} differ",
            tally.compared, tally.in_form, tally.differing
        );
        tally.finish(&TREELIST, asked)
    }
}

impl Judge {
    fn count(&mut self, kind: &'static str, outcome: &Outcome, bytes: usize) {
        self.tally
            .count(kind, outcome.in_form(), &outcome.refusals(), bytes);
        self.largest_output = self.largest_output.max(bytes);
        if let Outcome::Listed { list, .. } = outcome {
            let nodes = list.lines().count() - 1;
            self.nodes += nodes;
            self.largest_tree = self.largest_tree.max(nodes);
        }
    }
}
