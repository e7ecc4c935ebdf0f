/* The same work in plain C, to compare with. Where a register stands at the top of 32 bits, a generator X^h + low is passed as
 * low << (32 - h), and a remainder r comes out as r << (32 - h). */
#ifndef PEERS_H
#define PEERS_H

#include "pukhtamo_station.h"

#include <stddef.h>
#include <stdint.h>

/* ---- engines */

struct peer {
    uint32_t low;
    uint32_t entries[256];
};

/* Takes up a generator and makes the table: each of the 256 entries by 8 steps of one bit. */
void peer_set(struct peer *peer, uint32_t low);

/* The same, one entry at a time: gcc is told not to make four at once. */
void peer_set_singly(struct peer *peer, uint32_t low);

/* The remainder of a message: a look-up for each byte, and a step for each bit. */
uint32_t peer_table(const struct peer *peer, const uint8_t *message, size_t n);
uint32_t peer_bitwise(const struct peer *peer, const uint8_t *message, size_t n);

/* Sixteen tables: number k is for a byte with k more bytes after it in its block. */
struct sliced {
    uint32_t tables[16][256];
};

void peer_slice_set(struct sliced *sliced, uint32_t low);

/* Sixteen bytes at a time, the look-ups that wait for the block before last. */
uint32_t peer_slice(const struct sliced *sliced, const uint8_t *message, size_t n);

/* The least i from 1 to limit for which X^i leaves 1, or 0 where there is none; unit is 1 at the place of the register. */
uint32_t peer_period(uint32_t low, uint32_t unit, uint32_t limit);

/* ---- codes and frames */

/* The check bytes of a message under a code that is admitted. Answers how many there are. */
size_t peer_check(const struct pukhtamo_code *code, const uint8_t *message, size_t n, uint8_t *check);

/* The frame of a message under a code that is admitted. Answers its length. */
size_t peer_frame(uint8_t number, const struct pukhtamo_code *code, const uint8_t *message, size_t n, uint8_t *frame);

#endif
