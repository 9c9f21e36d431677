/* The words of one ChaCha20 block with nonce zero, as a plain C loop. */
#include <stdint.h>

static inline uint32_t turned(uint32_t x, int by) {
  return x << by | x >> (32 - by);
}

static inline void quarter_round(uint32_t *s, int a, int b, int c, int d) {
  s[a] += s[b];
  s[d] = turned(s[d] ^ s[a], 16);
  s[c] += s[d];
  s[b] = turned(s[b] ^ s[c], 12);
  s[a] += s[b];
  s[d] = turned(s[d] ^ s[a], 8);
  s[c] += s[d];
  s[b] = turned(s[b] ^ s[c], 7);
}

void plain_c_block(const uint32_t key[8], uint32_t counter, uint64_t words[8]) {
  const uint32_t before[16] = {
      0x61707865, 0x3320646e, 0x79622d32, 0x6b206574,
      key[0], key[1], key[2], key[3], key[4], key[5], key[6], key[7],
      counter, 0, 0, 0,
  };
  uint32_t s[16];
  for (int n = 0; n < 16; n++) s[n] = before[n];
  for (int n = 0; n < 10; n++) {
    quarter_round(s, 0, 4, 8, 12);
    quarter_round(s, 1, 5, 9, 13);
    quarter_round(s, 2, 6, 10, 14);
    quarter_round(s, 3, 7, 11, 15);
    quarter_round(s, 0, 5, 10, 15);
    quarter_round(s, 1, 6, 11, 12);
    quarter_round(s, 2, 7, 8, 13);
    quarter_round(s, 3, 4, 9, 14);
  }
  for (int n = 0; n < 8; n++) {
    uint32_t low = s[2 * n] + before[2 * n];
    uint32_t high = s[2 * n + 1] + before[2 * n + 1];
    words[n] = (uint64_t)high << 32 | low;
  }
}
