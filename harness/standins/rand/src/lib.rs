//! Stands in for `rand`: a `ChaCha20Rng` that draws nothing itself but hands out fed words.
//! That replaces the draws by design (document 01: words are fed in); the words reach the given
//! Rust in its own order and by its own calls, so nothing else that is compared can change.
//!
//! * `random::<f64>()` takes the next fed word w as the factor (w >> 11) * 2^-53.
//! * `next_u64()` takes no word. The given Rust only keeps its answer as the next seed, so word k
//!   of an add is the word of the k-th node from the leaf to the root.
//! * `random::<f32>()` stands only in the branch of cut.rs that is seeded with 17. It is counted,
//!   so that a run can show that the branch was not reached.
use std::cell::RefCell;

/// The words still to be handed out on this thread, and what was drawn.
struct Feed {
    words: Vec<u64>,
    taken: usize,
    first: Option<f64>,
    seed17_draws: usize,
}

thread_local! {
    static FEED: RefCell<Feed> = const {
        RefCell::new(Feed { words: Vec::new(), taken: 0, first: None, seed17_draws: 0 })
    };
}

/// The caller's side: what the given Rust is to draw.
pub mod feed {
    use super::FEED;

    /// Feeds `words`, first one first, and forgets everything fed before.
    pub fn set(words: &[u64]) {
        FEED.with_borrow_mut(|f| {
            f.words.clear();
            f.words.extend_from_slice(words);
            f.taken = 0;
            f.first = None;
        });
    }

    /// Makes the next draw the number `x` itself, before any word. The weight of an arrival is
    /// made from such a draw.
    pub fn set_first(x: f64) {
        FEED.with_borrow_mut(|f| f.first = Some(x));
    }

    /// How many of the words were taken since `set`.
    pub fn taken() -> usize {
        FEED.with_borrow(|f| f.taken)
    }

    /// How often the branch seeded with 17 has drawn on this thread.
    pub fn seed17_draws() -> usize {
        FEED.with_borrow(|f| f.seed17_draws)
    }
}

/// The factor of a word, by the rule of document 01.
#[inline]
pub fn factor(word: u64) -> f64 {
    (word >> 11) as f64 * (1.0 / (1u64 << 53) as f64)
}

pub trait FromFeed {
    fn draw() -> Self;
}

impl FromFeed for f64 {
    #[inline]
    fn draw() -> f64 {
        FEED.with_borrow_mut(|f| {
            if let Some(x) = f.first.take() {
                return x;
            }
            let word = *f.words.get(f.taken).expect("fed too few words");
            f.taken += 1;
            factor(word)
        })
    }
}

impl FromFeed for f32 {
    fn draw() -> f32 {
        FEED.with_borrow_mut(|f| f.seed17_draws += 1);
        0.0
    }
}

pub trait Rng {
    fn next_u64(&mut self) -> u64;
    #[inline]
    fn random<T: FromFeed>(&mut self) -> T {
        T::draw()
    }
}

pub trait SeedableRng {
    fn seed_from_u64(seed: u64) -> Self;
}

pub mod rngs {
    pub struct ChaCha20Rng {
        seed: u64,
    }
    impl super::SeedableRng for ChaCha20Rng {
        fn seed_from_u64(seed: u64) -> Self {
            ChaCha20Rng { seed }
        }
    }
    impl super::Rng for ChaCha20Rng {
        fn next_u64(&mut self) -> u64 {
            self.seed
        }
    }
}

pub mod prelude {
    pub use super::{Rng, SeedableRng};
}
