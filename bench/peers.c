#include "peers.h"

/* The register times X. */
static inline uint32_t step(uint32_t low, uint32_t r)
{
    return r & 0x80000000u ? (r << 1) ^ low : r << 1;
}

void peer_set(struct peer *peer, uint32_t low)
{
    peer->low = low;
    for (uint32_t a = 0; a < 256; a++) {
        uint32_t r = a << 24;
        for (int i = 0; i < 8; i++)
            r = step(low, r);
        peer->entries[a] = r;
    }
}

__attribute__((optimize("no-tree-vectorize")))
void peer_set_singly(struct peer *peer, uint32_t low)
{
    peer->low = low;
    for (uint32_t a = 0; a < 256; a++) {
        uint32_t r = a << 24;
        for (int i = 0; i < 8; i++)
            r = step(low, r);
        peer->entries[a] = r;
    }
}

uint32_t peer_table(const struct peer *peer, const uint8_t *message, size_t n)
{
    uint32_t r = 0;
    for (size_t i = 0; i < n; i++)
        r = (r << 8) ^ peer->entries[(r >> 24) ^ message[i]];
    return r;
}

uint32_t peer_bitwise(const struct peer *peer, const uint8_t *message, size_t n)
{
    uint32_t r = 0, low = peer->low;
    for (size_t i = 0; i < n; i++) {
        r ^= (uint32_t)message[i] << 24;
        for (int k = 0; k < 8; k++)
            r = step(low, r);
    }
    return r;
}

uint32_t peer_period(uint32_t low, uint32_t unit, uint32_t limit)
{
    uint32_t r = unit;
    for (uint32_t i = 1; i <= limit; i++) {
        r = step(low, r);
        if (r == unit)
            return i;
    }
    return 0;
}
