/* Slicing by sixteen in plain C. */
#include "peers.h"

#include <string.h>

void peer_slice_set(struct sliced *sliced, uint32_t low)
{
    for (uint32_t a = 0; a < 256; a++) {
        uint32_t r = a << 24;
        for (int i = 0; i < 8; i++)
            r = r & 0x80000000u ? (r << 1) ^ low : r << 1;
        sliced->tables[0][a] = r;
    }
    for (int k = 1; k < 16; k++)
        for (int a = 0; a < 256; a++) {
            uint32_t r = sliced->tables[k - 1][a];
            sliced->tables[k][a] = (r << 8) ^ sliced->tables[0][r >> 24];
        }
}

static inline uint32_t word_at(const uint8_t *p)
{
    uint32_t w;
    memcpy(&w, p, 4);
    return __builtin_bswap32(w);
}

/* The four bytes of a word, whose last byte has k more after it in the block. */
static inline uint32_t look_up(const struct sliced *s, int k, uint32_t w)
{
    return s->tables[k + 3][w >> 24] ^ s->tables[k + 2][w >> 16 & 255] ^ s->tables[k + 1][w >> 8 & 255] ^ s->tables[k][w & 255];
}

uint32_t peer_slice(const struct sliced *sliced, const uint8_t *message, size_t n)
{
    uint32_t r = 0;
    for (; n >= 16; n -= 16, message += 16) {
        uint32_t others = look_up(sliced, 8, word_at(message + 4)) ^ look_up(sliced, 4, word_at(message + 8)) ^ look_up(sliced, 0, word_at(message + 12));
        r = others ^ look_up(sliced, 12, word_at(message) ^ r);
    }
    for (; n > 0; n--, message++)
        r = (r << 8) ^ sliced->tables[0][(r >> 24) ^ *message];
    return r;
}
