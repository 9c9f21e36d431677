//! The ChaCha20 block of RFC 8439, sections 2.1 to 2.3.

pub const KEY_BYTES: usize = 32;
pub const NONCE_BYTES: usize = 12;
pub const BLOCK_BYTES: usize = 64;

/// "expand 32-byte k", read as four numbers.
const CONSTANTS: [u32; 4] = [0x6170_7865, 0x3320_646E, 0x7962_2D32, 0x6B20_6574];

/// Ten times a column round and a diagonal round: twenty rounds.
const DOUBLE_ROUNDS: usize = 10;

/// The places of the state that the quarter rounds of a column round take, and those of a diagonal round.
const COLUMNS: [[usize; 4]; 4] = [[0, 4, 8, 12], [1, 5, 9, 13], [2, 6, 10, 14], [3, 7, 11, 15]];
const DIAGONALS: [[usize; 4]; 4] = [[0, 5, 10, 15], [1, 6, 11, 12], [2, 7, 8, 13], [3, 4, 9, 14]];

/// Section 2.1, its four lines.
pub fn quarter_round([mut a, mut b, mut c, mut d]: [u32; 4]) -> [u32; 4] {
    a = a.wrapping_add(b);
    d = (d ^ a).rotate_left(16);
    c = c.wrapping_add(d);
    b = (b ^ c).rotate_left(12);
    a = a.wrapping_add(b);
    d = (d ^ a).rotate_left(8);
    c = c.wrapping_add(d);
    b = (b ^ c).rotate_left(7);
    [a, b, c, d]
}

/// Section 2.3: the 64 keystream bytes of a block.
pub fn block(key: &[u8; KEY_BYTES], counter: u32, nonce: &[u8; NONCE_BYTES]) -> [u8; BLOCK_BYTES] {
    let before = state(key, counter, nonce);
    let mut after = before;
    for _ in 0..DOUBLE_ROUNDS {
        for places in COLUMNS.iter().chain(&DIAGONALS) {
            round_at(&mut after, places);
        }
    }
    let mut bytes = [0; BLOCK_BYTES];
    for (n, four) in bytes.chunks_mut(4).enumerate() {
        four.copy_from_slice(&after[n].wrapping_add(before[n]).to_le_bytes());
    }
    bytes
}

/// The state before the rounds: constants, key, counter, nonce.
fn state(key: &[u8; KEY_BYTES], counter: u32, nonce: &[u8; NONCE_BYTES]) -> [u32; 16] {
    let mut state = [0; 16];
    state[..4].copy_from_slice(&CONSTANTS);
    for (place, four) in state[4..12].iter_mut().zip(key.chunks(4)) {
        *place = number(four);
    }
    state[12] = counter;
    for (place, four) in state[13..].iter_mut().zip(nonce.chunks(4)) {
        *place = number(four);
    }
    state
}

/// Section 2.2: a quarter round on four places of the state.
fn round_at(state: &mut [u32; 16], places: &[usize; 4]) {
    let turned = quarter_round(places.map(|place| state[place]));
    for (place, number) in places.iter().zip(turned) {
        state[*place] = number;
    }
}

/// Four bytes as a number, the low byte first.
fn number(four: &[u8]) -> u32 {
    u32::from_le_bytes(four.try_into().expect("four bytes"))
}
