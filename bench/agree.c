/* Whether the engines and the C agree, and the linked libraries with both. */
#include "bench.h"

#include <stdio.h>

_Static_assert(sizeof(struct pukhtamo_generator) == 8, "a degree and a low part");
_Static_assert(sizeof(struct pukhtamo_bitwise) == 12, "a generator and a register");
_Static_assert(sizeof(struct pukhtamo_table) == 12 + 1024, "a generator, a register and 256 entries");
_Static_assert(sizeof(struct pukhtamo_ready_made) == 4, "a register");
_Static_assert(sizeof(struct pukhtamo_fast) == 12, "a generator and a register");
_Static_assert(sizeof(struct pukhtamo_slicing) == 12 + 16 * 1024, "a generator, a register and sixteen tables");
_Static_assert(sizeof(struct pukhtamo_period_answer) == 6, "a number, a period and the steps");

static long compared, differing;

void same(const char *what, struct generator g, size_t n, uint32_t want, uint32_t got)
{
    compared++;
    if (want == got)
        return;
    if (differing++ < 20)
        printf("DIFFERS: %s, generator %d/%X, length %zu: expected %X, got %X\n", what, g.degree, g.low, n, want, got);
}

bool agreed(void)
{
    printf("agreement: %ld results compared, %ld differ\n", compared, differing);
    return differing == 0;
}

static struct pukhtamo_bitwise bitwise;
static struct pukhtamo_table table;
static struct pukhtamo_ready_made ready_made;
static struct pukhtamo_fast fast;
static struct pukhtamo_slicing slicing;
static struct peer peer;
static struct sliced sliced;

static void new_engines(void)
{
    bitwise = pukhtamo_bitwise_new();
    table = pukhtamo_table_new();
    ready_made = pukhtamo_ready_made_new();
    fast = pukhtamo_fast_new();
    slicing = pukhtamo_slicing_new();
}

/* The remainder of the first n bytes by each engine that carries the generator. */
static void agree_at(struct generator g, size_t n, bool carried_fast, bool carried_ready)
{
    uint32_t want = peer_table(&peer, message, n) >> (32 - g.degree);
    same("C, bit by bit", g, n, want, peer_bitwise(&peer, message, n) >> (32 - g.degree));
    same("bitwise", g, n, want, pukhtamo_bitwise_remainder(&bitwise, message, n));
    same("bitwise by bytes", g, n, want, pukhtamo_bitwise_remainder_by_bytes(&bitwise, message, n));
    same("table", g, n, want, pukhtamo_table_remainder(&table, message, n));
    same("table by bytes", g, n, want, pukhtamo_table_remainder_by_bytes(&table, message, n));
    same("C, slicing", g, n, want, peer_slice(&sliced, message, n) >> (32 - g.degree));
    same("slicing", g, n, want, pukhtamo_slicing_remainder(&slicing, message, n));
    same("slicing by bytes", g, n, want, pukhtamo_slicing_remainder_by_bytes(&slicing, message, n));
    if (carried_fast) {
        same("fast", g, n, want, pukhtamo_fast_remainder(&fast, message, n));
        same("fast by bytes", g, n, want, pukhtamo_fast_remainder_by_bytes(&fast, message, n));
    }
    if (carried_ready) {
        same("ready-made", g, n, want, pukhtamo_ready_made_remainder(&ready_made, message, n));
        same("ready-made by bytes", g, n, want, pukhtamo_ready_made_remainder_by_bytes(&ready_made, message, n));
    }
}

static void agree_on(struct generator g)
{
    static const size_t longer[] = {511, 512, 513, 1000, 1024, 4095, 4096};
    bool short_low = (uint64_t)g.low >> (g.degree - 7) == 0;
    bool ieee = g.degree == IEEE.degree && g.low == IEEE.low;
    peer_set(&peer, at_top(g));
    peer_slice_set(&sliced, at_top(g));
    same("bitwise set", g, 0, 0, pukhtamo_bitwise_set(&bitwise, g.degree, g.low));
    same("table set", g, 0, 0, pukhtamo_table_set(&table, g.degree, g.low));
    same("slicing set", g, 0, 0, pukhtamo_slicing_set(&slicing, g.degree, g.low));
    same("fast set", g, 0, short_low ? 0 : 15, pukhtamo_fast_set(&fast, g.degree, g.low));
    same("ready-made set", g, 0, ieee ? 0 : 15, pukhtamo_ready_made_set(&ready_made, g.degree, g.low));
    for (int a = 0; a < 256; a++)
        same("entry", g, a, peer.entries[a] >> (32 - g.degree), table.entries[a]);
    for (int k = 0; k < 16; k++)
        for (int a = 0; a < 256; a++)
            same("entry of sixteen", g, a, sliced.tables[k][a], slicing.tables[k][a]);
    for (size_t n = 0; n <= 300; n++)
        agree_at(g, n, short_low, ieee);
    for (size_t k = 0; k < sizeof longer / sizeof *longer; k++)
        agree_at(g, longer[k], short_low, ieee);
    struct pukhtamo_period_answer p = pukhtamo_period(g.degree, g.low);
    uint32_t want = peer_period(at_top(g), 1u << (32 - g.degree), LIMIT);
    same("period's number", g, 0, 0, p.number);
    same("period", g, 0, want, p.period);
    same("period's steps", g, 0, want ? want : LIMIT, p.steps);
}

/* A set that every engine refuses, and that alters nothing. */
static void refused(uint8_t degree, uint32_t low, uint32_t number)
{
    struct generator g = {degree, low};
    uint32_t b = pukhtamo_bitwise_remainder(&bitwise, message, 100), t = pukhtamo_table_remainder(&table, message, 100);
    uint32_t s = pukhtamo_slicing_remainder(&slicing, message, 100);
    uint32_t f = pukhtamo_fast_remainder(&fast, message, 100), r = pukhtamo_ready_made_remainder(&ready_made, message, 100);
    same("bitwise refusal", g, 0, number, pukhtamo_bitwise_set(&bitwise, degree, low));
    same("table refusal", g, 0, number, pukhtamo_table_set(&table, degree, low));
    same("slicing refusal", g, 0, number, pukhtamo_slicing_set(&slicing, degree, low));
    same("fast refusal", g, 0, number, pukhtamo_fast_set(&fast, degree, low));
    same("ready-made refusal", g, 0, number, pukhtamo_ready_made_set(&ready_made, degree, low));
    same("bitwise after", g, 100, b, pukhtamo_bitwise_remainder(&bitwise, message, 100));
    same("table after", g, 100, t, pukhtamo_table_remainder(&table, message, 100));
    same("slicing after", g, 100, s, pukhtamo_slicing_remainder(&slicing, message, 100));
    same("fast after", g, 100, f, pukhtamo_fast_remainder(&fast, message, 100));
    same("ready-made after", g, 100, r, pukhtamo_ready_made_remainder(&ready_made, message, 100));
}

void agree_engines(void)
{
    static const struct generator all[] = {{8, 0x01}, {8, 0x07}, {8, 0x1D}, {9, 0x003}, {12, 0x80F}, {15, 0x0003}, {16, 0x1021}, {16, 0x8005},
        {16, 0x011B}, {24, 0x5D6DCB}, {24, 0x018301}, {31, 0x00000009}, {32, 0x04C11DB7}, {32, 0x1EDC6F41}, {32, 0x000000AF}, {32, 0xFFFFFFFF}};
    new_engines();
    for (size_t k = 0; k < sizeof all / sizeof *all; k++)
        agree_on(all[k]);
    refused(0, 1, 12);
    refused(7, 1, 12);
    refused(33, 1, 12);
    refused(255, 1, 12);
    refused(8, 0x101, 13);
    refused(31, 0x80000001, 13);
    refused(16, 0x1020, 13);
    refused(32, 0, 13);
    same("period refused", (struct generator){1, 1}, 0, 12, pukhtamo_period(1, 1).number);
    same("period refused", (struct generator){2, 2}, 0, 13, pukhtamo_period(2, 2).number);
}

/* ---- linked libraries */

static uint32_t turned(uint32_t r, int bits)
{
    uint32_t t = 0;
    for (int i = 0; i < bits; i++)
        t |= (r >> i & 1) << (bits - 1 - i);
    return t;
}

/* What a library of another form gives, by the table engine: the bits of each byte turned round where the lowest comes first, and
 * 32 ones added to the start of the message where the register is all ones before. */
static uint32_t in_form(size_t n, bool lowest_first, bool ones)
{
    static uint8_t bytes[BULK];
    for (size_t i = 0; i < n; i++)
        bytes[i] = (uint8_t)((lowest_first ? turned(message[i], 8) : message[i]) ^ (ones && i < 4 ? 0xFF : 0));
    uint32_t r = pukhtamo_table_remainder(&table, bytes, n);
    return (lowest_first ? turned(r, 32) : r) ^ (ones ? 0xFFFFFFFF : 0);
}

static void agree_form(const char *what, linked *l, bool lowest_first, bool ones)
{
    static const size_t lengths[] = {4, 5, 15, 16, 17, 63, 64, 65, 300, 1000, 1024, 4095, 4096, BULK};
    for (size_t k = 0; l && k < sizeof lengths / sizeof *lengths; k++)
        same(what, IEEE, lengths[k], in_form(lengths[k], lowest_first, ones), l(message, lengths[k]));
}

void agree_linked(void)
{
    pukhtamo_table_set(&table, IEEE.degree, IEEE.low);
    agree_form("zlib", linked_zlib, true, true);
    agree_form("isa-l, table", linked_isal_table, false, true);
    agree_form("isa-l, products", linked_isal_products, false, true);
    agree_form("crcutil", linked_crcutil, true, false);
    agree_form("crc crate", linked_crc_crate, true, true);
}
