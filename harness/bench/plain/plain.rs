//! The words of one ChaCha20 block with nonce zero, as a plain Rust loop. A crate of its own, which build.rs compiles.
#![no_std]
#![crate_type = "lib"]

/// "expand 32-byte k", read as four numbers.
const CONSTANTS: [u32; 4] = [0x6170_7865, 0x3320_646E, 0x7962_2D32, 0x6B20_6574];

#[inline(always)]
fn quarter_round(s: &mut [u32; 16], a: usize, b: usize, c: usize, d: usize) {
    s[a] = s[a].wrapping_add(s[b]);
    s[d] = (s[d] ^ s[a]).rotate_left(16);
    s[c] = s[c].wrapping_add(s[d]);
    s[b] = (s[b] ^ s[c]).rotate_left(12);
    s[a] = s[a].wrapping_add(s[b]);
    s[d] = (s[d] ^ s[a]).rotate_left(8);
    s[c] = s[c].wrapping_add(s[d]);
    s[b] = (s[b] ^ s[c]).rotate_left(7);
}

#[no_mangle]
pub extern "C" fn plain_rust_block(key: &[u32; 8], counter: u32, words: &mut [u64; 8]) {
    let [a, b, c, d] = CONSTANTS;
    let [k0, k1, k2, k3, k4, k5, k6, k7] = *key;
    let before = [a, b, c, d, k0, k1, k2, k3, k4, k5, k6, k7, counter, 0, 0, 0];
    let mut s = before;
    for _ in 0..10 {
        quarter_round(&mut s, 0, 4, 8, 12);
        quarter_round(&mut s, 1, 5, 9, 13);
        quarter_round(&mut s, 2, 6, 10, 14);
        quarter_round(&mut s, 3, 7, 11, 15);
        quarter_round(&mut s, 0, 5, 10, 15);
        quarter_round(&mut s, 1, 6, 11, 12);
        quarter_round(&mut s, 2, 7, 8, 13);
        quarter_round(&mut s, 3, 4, 9, 14);
    }
    for (n, word) in words.iter_mut().enumerate() {
        let low = s[2 * n].wrapping_add(before[2 * n]);
        let high = s[2 * n + 1].wrapping_add(before[2 * n + 1]);
        *word = u64::from(high) << 32 | u64::from(low);
    }
}
