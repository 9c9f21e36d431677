/* The port's two C functions. docs/LAYOUT.md says what the bytes of a run are. */
#ifndef SICKLEPHLOX_H
#define SICKLEPHLOX_H

#include <stddef.h>
#include <stdint.h>

#ifdef __cplusplus
extern "C" {
#endif

/*
 * Carries out a run, the making of a tree and the calls after it, and writes the answers.
 *
 * Returns how many answer bytes it wrote, a multiple of 4; or 17 if the run is not in the layout; or 15
 * if it is and fewer answer bytes are lent than it needs. With 17 and 15 nothing is written. Answer
 * bytes beyond those returned stay as they were, the run is only read, and no state outlives the call.
 * The two buffers must not overlap; each may lie at any address.
 */
size_t sicklephlox_run(const uint8_t *run, size_t run_length, uint8_t *answers, size_t answers_length);

/*
 * Fills `words` with the words of the key's stream from number `start` on. The stream is the ChaCha20 keystream of RFC 8439
 * with nonce zero and the block counter from 0; word n is its bytes 8n to 8n + 7, the low byte first.
 *
 * Returns how many bytes it wrote, 8 for each word; or 21 if the key has not 32 bytes; or, that being right, 22 if
 * start is 2^35 or above or start + words_length is above 2^35. With 21 and 22 nothing is written. An empty list is refused
 * at 2^35 and not below it. The key is only read, and no state outlives the call. The two buffers must not overlap; the
 * key may lie at any address, the words as a uint64_t must.
 */
size_t sicklephlox_words(const uint8_t *key, size_t key_length, uint64_t start, uint64_t *words, size_t words_length);

#ifdef __cplusplus
}
#endif

#endif
