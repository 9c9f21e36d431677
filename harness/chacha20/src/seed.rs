//! A key from one 64-bit number, as the Rust's `SeedableRng::seed_from_u64` makes it: a small generator (PCG32)
//! gives four bytes at a time. The port takes keys alone.
use crate::block::KEY_BYTES;

const MULTIPLIER: u64 = 6_364_136_223_846_793_005;
const INCREMENT: u64 = 11_634_580_027_462_260_723;

pub fn key_of_seed(seed: u64) -> [u8; KEY_BYTES] {
    let mut state = seed;
    let mut key = [0; KEY_BYTES];
    for four in key.chunks_mut(4) {
        state = state.wrapping_mul(MULTIPLIER).wrapping_add(INCREMENT);
        let shifted = (((state >> 18) ^ state) >> 27) as u32;
        let turned = shifted.rotate_right((state >> 59) as u32);
        four.copy_from_slice(&turned.to_le_bytes());
    }
    key
}
