/// A small generator (splitmix64) for inputs: the same seed gives the same inputs everywhere.
/// It has nothing to do with the Rust's own draws, which are fed.
#[derive(Clone)]
pub struct Words {
    state: u64,
}

impl Words {
    pub fn new(seed: u64) -> Self {
        Words { state: seed }
    }

    /// The generator of input n of a seed, so that each can be made without those before it.
    pub fn nth(seed: u64, n: usize) -> Self {
        let mut of_seed = Words::new(seed);
        Words::new(of_seed.word() ^ n as u64)
    }

    /// The next 64 bits.
    pub fn word(&mut self) -> u64 {
        self.state = self.state.wrapping_add(0x9E37_79B9_7F4A_7C15);
        let mut z = self.state;
        z = (z ^ (z >> 30)).wrapping_mul(0xBF58_476D_1CE4_E5B9);
        z = (z ^ (z >> 27)).wrapping_mul(0x94D0_49BB_1331_11EB);
        z ^ (z >> 31)
    }

    /// A number below `bound`, which is not 0. The slight unevenness does no harm to inputs.
    pub fn below(&mut self, bound: usize) -> usize {
        ((self.word() >> 32) as usize) % bound
    }

    /// A whole number from `low` to `high`, both taken.
    pub fn between(&mut self, low: i32, high: i32) -> i32 {
        low + self.below((high - low) as usize + 1) as i32
    }

    /// True once in `n` times.
    pub fn once_in(&mut self, n: usize) -> bool {
        self.below(n) == 0
    }

    /// One of the items.
    pub fn one_of<T: Copy>(&mut self, items: &[T]) -> T {
        items[self.below(items.len())]
    }
}
