//! A sample by document 01's rule. Which of equal largest weights goes is the Rust's heap's to say, so
//! that is taken from the answer; all else is told before it.
use oracle::factor;
use runs::Answer;

pub struct Kept {
    capacity: usize,
    initial: f64,
    /// Weight and leaf's index of each arrival kept.
    entries: Vec<(f32, u32)>,
}

impl Kept {
    pub fn new(capacity: usize, initial: f64) -> Self {
        Kept {
            capacity,
            initial,
            entries: vec![],
        }
    }

    /// An arrival and its answer: what became of it, the leaf's index and the evicted one.
    pub fn arrive(&mut self, weight: f32, word: u64, what: u32, leaf: u32, evicted: u32) {
        let starts = starts(self.entries.len(), self.capacity, self.initial, word);
        let largest = self.entries.iter().map(|entry| entry.0).reduce(f32::max);
        let below = |largest: f32| weight < largest;
        let expected = match (starts, largest.is_some_and(below)) {
            (true, _) => 1,
            (false, true) => 2,
            (false, false) => 0,
        };
        assert_eq!(what, expected);
        if what == 2 {
            let largest = largest.expect("one that is evicted");
            let mut entries = self.entries.iter();
            let place = entries.position(|entry| *entry == (largest, evicted));
            self.entries.swap_remove(place.expect("one of the largest"));
        }
        if what == 0 {
            assert_eq!((leaf, evicted), (0, 0));
        } else {
            assert!(what == 2 || evicted == 0);
            self.entries.push((weight, leaf));
        }
    }

    /// The sample as it is answered: the same entries in the order of a heap, then zeros.
    pub fn check(&self, answer: &Answer) {
        let kept = answer[1] as usize;
        let (told, beyond) = answer[2..].split_at(2 * kept);
        let mut told: Vec<(u32, u32)> = told.chunks(2).map(|two| (two[0], two[1])).collect();
        for n in 1..kept {
            let [above, here] = [(n - 1) / 2, n].map(|place| f32::from_bits(told[place].0));
            assert!(above >= here);
        }
        let mut entries: Vec<(u32, u32)> = self
            .entries
            .iter()
            .map(|(weight, index)| (weight.to_bits(), *index))
            .collect();
        told.sort_unstable();
        entries.sort_unstable();
        assert_eq!(told, entries);
        assert_eq!(beyond.len(), 2 * (self.capacity - kept));
        assert!(beyond.iter().all(|number| *number == 0));
    }
}

/// Whether an arrival starts where so many are held, by document 01's starting chance, which is that of
/// `initial_accept_probability`.
pub fn starts(held: usize, capacity: usize, initial: f64, word: u64) -> bool {
    let filled = held as f64 / capacity as f64;
    let chance = if filled < initial {
        1.0
    } else if initial >= 1.0 {
        0.0
    } else {
        1.0 - (filled - initial) / (1.0 - initial)
    };
    held < capacity && factor(word) < chance
}
