/* The codes and the frame in plain C, by their definitions. */
#include "peers.h"

#include <string.h>

/* r times X, modulo X^degree + low. */
static uint32_t times_x(uint8_t degree, uint32_t low, uint32_t r)
{
    uint64_t t = (uint64_t)r << 1;
    return (uint32_t)(t >> degree ? t ^ ((uint64_t)1 << degree) ^ low : t);
}

/* The remainder of p, bit by bit from the highest. */
static uint32_t reduced(uint8_t degree, uint32_t low, uint32_t p)
{
    uint32_t r = 0;
    for (int i = 31; i >= 0; i--)
        r = times_x(degree, low, r) ^ (p >> i & 1);
    return r;
}

/* The remainder of a message times X^degree. */
static uint32_t message_remainder(uint8_t degree, uint32_t low, const uint8_t *message, size_t n)
{
    uint32_t r = 0;
    for (size_t i = 0; i < n; i++)
        for (int k = 7; k >= 0; k--)
            r = times_x(degree, low, r) ^ (message[i] >> k & 1 ? low : 0);
    return r;
}

static void put(uint8_t *out, size_t count, uint32_t value)
{
    while (count-- > 0) {
        out[count] = (uint8_t)value;
        value >>= 8;
    }
}

static size_t weighted_check(const struct pukhtamo_code *code, const uint8_t *message, size_t n, uint8_t *check)
{
    uint32_t weighted = 0, plain = 0;
    for (size_t i = 0; i < n; i += code->tuple) {
        uint32_t q = 0;
        for (size_t k = 0; k < code->tuple; k++)
            q = q << 8 | message[i + k];
        weighted = times_x(code->degree, code->low, weighted) ^ q;
        plain ^= q;
    }
    uint32_t first = times_x(code->degree, code->low, reduced(code->degree, code->low, weighted));
    put(check, code->tuple, first);
    put(check + code->tuple, code->tuple, reduced(code->degree2, code->low2, plain ^ first));
    return 2 * (size_t)code->tuple;
}

size_t peer_check(const struct pukhtamo_code *code, const uint8_t *message, size_t n, uint8_t *check)
{
    if (code->kind == 3)
        return weighted_check(code, message, n, check);
    uint32_t r = message_remainder(code->degree, code->low, message, n);
    if (code->kind == 2) {
        int ones = __builtin_popcount(r);
        for (size_t i = 0; i < n; i++)
            ones += __builtin_popcount(message[i]);
        r = r << 1 | (ones & 1);
    }
    size_t count = (code->degree + 7) / 8;
    put(check, count, r);
    return count;
}

size_t peer_frame(uint8_t number, const struct pukhtamo_code *code, const uint8_t *message, size_t n, uint8_t *frame)
{
    memcpy(frame + 16, message, n);
    size_t word = n + peer_check(code, message, n, frame + 16 + n);
    frame[0] = 1;
    frame[1] = number;
    frame[2] = code->kind;
    frame[3] = code->degree;
    put(frame + 4, 4, code->low);
    frame[8] = code->degree2;
    put(frame + 9, 2, code->low2);
    frame[11] = code->tuple;
    put(frame + 12, 2, (uint32_t)word);
    put(frame + 14, 2, message_remainder(16, 0x1021, frame, 14));
    return 16 + word;
}
