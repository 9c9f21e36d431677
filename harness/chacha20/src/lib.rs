//! Words from a key, as request A.6 has them: the ChaCha20 block of RFC 8439, and the words of its keystream. Nothing
//! here is the port's, and nothing is written to be fast.
#![forbid(unsafe_code)]

mod block;
mod seed;
mod stream;

pub use block::{block, quarter_round, BLOCK_BYTES, KEY_BYTES, NONCE_BYTES};
pub use seed::key_of_seed;
pub use stream::{fill, is_stretch, stretch, word};
pub use stream::{BLOCK_WORDS, KEY_LENGTH, PAST_THE_END, WORDS, WORD_BYTES};
