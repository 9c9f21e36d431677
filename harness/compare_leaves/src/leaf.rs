//! A leaf of the port with what it is held to, and the comparison of the two.
use command::{reached, Faults, Shows, Tries};
use oracle::Words;
use std::fmt::Debug;

/// No leaf may be compared on fewer values.
const LEAST: usize = 1_000_000;

/// So many differences of a leaf are shown.
const SHOWN: usize = 5;

pub struct Leaf<I, A> {
    pub name: &'static str,
    /// Whose answers are right.
    pub held_to: &'static str,
    /// Values that come before the drawn ones.
    pub first: fn(&mut Words) -> Vec<I>,
    pub draw: fn(&mut Words) -> I,
    pub right: fn(I) -> A,
    pub port: fn(I) -> A,
    /// Wrong leaves, each with what is wrong.
    pub wrong: Vec<Wrong<I, A>>,
}

pub type Wrong<I, A> = (&'static str, fn(I) -> A);

impl<I: Copy + Debug, A: PartialEq + Debug> Leaf<I, A> {
    /// Its first values of a seed.
    fn values(&self, values: usize, seed: u64) -> impl Iterator<Item = I> + '_ {
        let mut words = Words::new(seed);
        let first = (self.first)(&mut words);
        let drawn = std::iter::repeat_with(move || (self.draw)(&mut words));
        first.into_iter().chain(drawn).take(values)
    }

    /// Puts each wrong leaf in the port's place. It is made where it answers otherwise than the port, and
    /// has to be noticed there: at values where the port is right.
    pub fn tell_faults(&self, faults: &mut Faults, values: usize, seed: u64) {
        for (what, wrong) in &self.wrong {
            let mut tries = Tries::default();
            for value in self.values(values, seed) {
                let answer = wrong(value);
                tries.made += usize::from(answer != (self.port)(value));
                tries.noticed += usize::from(answer != (self.right)(value));
            }
            let fault = format!("{}, {what}", self.name);
            faults.tell(fault, "values", tries, Shows::Always);
        }
    }
}

/// What was compared so far.
#[derive(Default)]
pub struct Tally {
    comparisons: usize,
    values: usize,
    differing: usize,
    /// The least number of values of a leaf, and that leaf.
    fewest: Option<(usize, &'static str)>,
}

impl Tally {
    pub fn look<I, A>(&mut self, leaf: &Leaf<I, A>, values: usize, seed: u64)
    where
        I: Copy + Debug,
        A: PartialEq + Debug,
    {
        let (mut compared, mut differing) = (0, 0);
        for value in leaf.values(values, seed) {
            let (right, got) = ((leaf.right)(value), (leaf.port)(value));
            compared += 1;
            if right == got {
                continue;
            }
            differing += 1;
            if differing <= SHOWN {
                println!(
                    "{} of {value:X?}\n  expected {right:X?}\n  got      {got:X?}",
                    leaf.name
                );
            }
        }
        let Leaf { name, held_to, .. } = leaf;
        println!("{name}: {compared} values compared with {held_to}, {differing} differ");
        self.comparisons += 1;
        self.values += compared;
        self.differing += differing;
        if self.fewest.is_none_or(|(fewest, _)| compared < fewest) {
            self.fewest = Some((compared, name));
        }
    }

    /// The last line, and an error if anything differs or a leaf had too few values.
    pub fn finish(self) -> Result<(), String> {
        let Tally {
            comparisons,
            values,
            differing,
            fewest,
        } = self;
        println!("leaves: {comparisons} comparisons, {values} values compared, {differing} differ");
        if differing > 0 {
            return Err("the port's leaves do not answer as they must".into());
        }
        let (fewest, name) = fewest.unwrap_or((0, "any leaf"));
        reached(fewest, LEAST, &format!("values of {name}"))
    }
}
