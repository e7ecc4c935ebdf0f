/* The engines, kinds and stations of Pukhtamo beside plain C and beside libraries: first whether they agree, then how fast they are. */
#include "bench.h"

#include <stdio.h>
#include <stdlib.h>

uint8_t message[BULK];

/* Each table begins on a page of its own: where one happens to lie across two pages, writing it takes a third more. */
#define ON_A_PAGE _Alignas(4096)

static struct pukhtamo_bitwise bitwise;
static ON_A_PAGE struct pukhtamo_table table;
static struct pukhtamo_ready_made ready_made;
static struct pukhtamo_fast fast;
static ON_A_PAGE struct pukhtamo_slicing slicing;
static ON_A_PAGE struct peer peer;
static ON_A_PAGE struct sliced sliced;

/* ---- engines */

static uint32_t do_table(size_t n) { return pukhtamo_table_remainder(&table, message, n); }
static uint32_t do_table_by_bytes(size_t n) { return pukhtamo_table_remainder_by_bytes(&table, message, n); }
static uint32_t do_ready_made(size_t n) { return pukhtamo_ready_made_remainder(&ready_made, message, n); }
static uint32_t do_ready_made_by_bytes(size_t n) { return pukhtamo_ready_made_remainder_by_bytes(&ready_made, message, n); }
static uint32_t do_bitwise(size_t n) { return pukhtamo_bitwise_remainder(&bitwise, message, n); }
static uint32_t do_fast(size_t n) { return pukhtamo_fast_remainder(&fast, message, n); }
static uint32_t do_slicing(size_t n) { return pukhtamo_slicing_remainder(&slicing, message, n); }
static uint32_t do_peer_table(size_t n) { return peer_table(&peer, message, n); }
static uint32_t do_peer_bitwise(size_t n) { return peer_bitwise(&peer, message, n); }
static uint32_t do_peer_slice(size_t n) { return peer_slice(&sliced, message, n); }
static uint32_t do_zlib(size_t n) { return linked_zlib(message, n); }
static uint32_t do_crcutil(size_t n) { return linked_crcutil(message, n); }
static uint32_t do_isal_table(size_t n) { return linked_isal_table(message, n); }
static uint32_t do_isal_products(size_t n) { return linked_isal_products(message, n); }
static uint32_t do_crc_crate(size_t n) { return linked_crc_crate(message, n); }

static void hold(struct generator g)
{
    pukhtamo_bitwise_set(&bitwise, g.degree, g.low);
    pukhtamo_table_set(&table, g.degree, g.low);
    pukhtamo_fast_set(&fast, g.degree, g.low);
    pukhtamo_ready_made_set(&ready_made, g.degree, g.low);
    pukhtamo_slicing_set(&slicing, g.degree, g.low);
    peer_set(&peer, at_top(g));
    peer_slice_set(&sliced, at_top(g));
}

/* Rows at 64 bytes, 1 KiB, 4 KiB and, for slicing, 1 MiB, each with its goal. */
static void speeds(const char *name, work *ours, const char *beside, work *theirs, int sizes, const double *least)
{
    static const size_t lengths[] = {64, 1024, LONGEST, BULK};
    for (int k = 0; k < sizes; k++)
        speed_row(name, beside, lengths[k], best(ours, theirs, lengths[k]), least[k]);
}

/* The same, where the library is linked. */
static void linked_speeds(const char *beside, linked *l, work *theirs, const double *least)
{
    if (l)
        speeds("slicing engine", do_slicing, beside, theirs, 4, least);
    else
        printf("%-26s %-26s is not linked: its package is missing\n", "slicing engine", beside);
}

static void engine_rows(void)
{
    static const double none[4], byte_table[] = {0, 0.95, 0.95}, bulk[] = {0, 1, 1}, short_low[] = {0, 1.3, 1.3};
    static const double slices[] = {0, 0, 1.1, 0}, zlib[] = {0, 1.05, 1, 0}, crcutil[] = {0, 0.85, 0.85, 0};
    head("MB/s", "speed");
    hold(IEEE);
    speeds("table engine", do_table, "C byte table", do_peer_table, 3, byte_table);
    speeds("ready-made engine", do_ready_made, "C byte table", do_peer_table, 3, none);
    speeds("table engine, bulk", do_table, "table engine, by bytes", do_table_by_bytes, 3, bulk);
    speeds("ready-made engine, bulk", do_ready_made, "ready-made, by bytes", do_ready_made_by_bytes, 3, bulk);
    speeds("slicing engine", do_slicing, "C byte table", do_peer_table, 4, none);
    speeds("slicing engine", do_slicing, "C slicing by 16", do_peer_slice, 4, slices);
    linked_speeds("zlib", linked_zlib, do_zlib, zlib);
    linked_speeds("crcutil", linked_crcutil, do_crcutil, crcutil);
    linked_speeds("isa-l, table", linked_isal_table, do_isal_table, none);
    linked_speeds("isa-l, carry-less products", linked_isal_products, do_isal_products, none);
    linked_speeds("Rust crate crc", linked_crc_crate, do_crc_crate, none);
    speeds("bitwise engine", do_bitwise, "C bit by bit", do_peer_bitwise, 3, none);
    hold(SHORT);
    speeds("fast engine, 16/011B", do_fast, "bitwise engine, 16/011B", do_bitwise, 3, short_low);
    speeds("fast engine, 16/011B", do_fast, "C bit by bit", do_peer_bitwise, 3, none);
}

/* ---- sets and walks */

/* Two generators in turn, so that the tables are built anew each time. */
static uint32_t turn;

static struct generator next_generator(void)
{
    return ++turn % 2 ? IEEE : CCITT;
}

static uint32_t do_set(size_t n)
{
    (void)n;
    struct generator g = next_generator();
    return pukhtamo_table_set(&table, g.degree, g.low);
}

static uint32_t do_slicing_set(size_t n)
{
    (void)n;
    struct generator g = next_generator();
    return pukhtamo_slicing_set(&slicing, g.degree, g.low);
}

static uint32_t do_peer_set(size_t n)
{
    (void)n;
    peer_set(&peer, at_top(next_generator()));
    return peer.entries[1];
}

static uint32_t do_peer_set_singly(size_t n)
{
    (void)n;
    peer_set_singly(&peer, at_top(next_generator()));
    return peer.entries[1];
}

static uint32_t do_peer_slice_set(size_t n)
{
    (void)n;
    peer_slice_set(&sliced, at_top(next_generator()));
    return sliced.tables[15][1];
}

/* Walks of 32,768 steps, each by another generator of degree 32. The processor learns a walk that comes again by heart, and
 * then foretells its branches, so no walk comes twice unless there are very many rounds. */
enum { WALKS = 4096, AT_ONCE = 4 };

static uint32_t walked[WALKS];
static size_t next_walk, next_peer_walk;

static void choose_walks(void)
{
    uint32_t x = IEEE.low;
    for (int k = 0; k < WALKS; x = x * 1664525u + 1013904223u)
        if (peer_period(x | 1, 1, LIMIT) == 0)
            walked[k++] = x | 1;
}

static uint32_t do_periods(size_t n)
{
    (void)n;
    uint32_t steps = 0;
    for (int k = 0; k < AT_ONCE; k++)
        steps += pukhtamo_period(32, walked[next_walk++ % WALKS]).steps;
    return steps;
}

static uint32_t do_peer_periods(size_t n)
{
    (void)n;
    uint32_t found = 0;
    for (int k = 0; k < AT_ONCE; k++)
        found += peer_period(walked[next_peer_walk++ % WALKS], 1, LIMIT);
    return found;
}

/* An admission of kind 1, with its one walk, and one of kind 3, which has a second one: X^16 + 011B has period 28,658. */
static uint32_t do_admissions(size_t n, uint8_t kind)
{
    (void)n;
    uint32_t numbers = 0;
    for (int k = 0; k < AT_ONCE; k++) {
        struct pukhtamo_code code = {kind, 32, walked[next_walk++ % WALKS], kind == 3 ? SHORT.degree : 0, kind == 3 ? SHORT.low : 0, kind == 3 ? 4 : 1};
        numbers += pukhtamo_admit(&code, LONGEST).number;
    }
    return numbers;
}

static uint32_t do_admissions_1(size_t n) { return do_admissions(n, 1); }
static uint32_t do_admissions_3(size_t n) { return do_admissions(n, 3); }

static void set_rows(void)
{
    head("ns", "time");
    time_row("table set", "C bit by bit", 0, best(do_set, do_peer_set, 0), 1, 0.1);
    time_row("table set", "C bit by bit, no vectors", 0, best(do_set, do_peer_set_singly, 0), 1, 0);
    time_row("slicing set", "C slicing set", 0, best(do_slicing_set, do_peer_slice_set, 0), 1, 0);
    choose_walks();
    time_row("period walk, a step", "C walk, a step", 0, best(do_periods, do_peer_periods, 0), AT_ONCE * LIMIT, 0);
    time_row("admission, kind 1", "a period walk", 0, best(do_admissions_1, do_periods, 0), AT_ONCE, 2);
    time_row("admission, kind 3", "a period walk", 0, best(do_admissions_3, do_periods, 0), AT_ONCE, 2);
}

/* ---- kinds and stations */

enum { READING = 20, NUMBER = 5, FRONT = 14 };

static const struct pukhtamo_code CRC = {1, 16, 0x1021, 0, 0, 1}, CRC_32 = {1, 32, 0x04C11DB7, 0, 0, 1}, PARITY = {2, 15, 0x0003, 0, 0, 1},
                                  SUMS = {3, 32, 0x04C11DB7, 16, 0x1021, 4};

/* What the next calls are made with: a code, held under a number, and a message of so many bytes with its frame. */
static struct pukhtamo_book_change entered;
static size_t long_message, long_frame;
static uint8_t frame[2 * LONGEST], out[2 * LONGEST];

static void with(struct pukhtamo_code code, uint16_t reach, size_t n)
{
    entered = (struct pukhtamo_book_change){PUKHTAMO_ENTER, NUMBER, code, reach};
    long_message = n;
    long_frame = pukhtamo_seal(&entered, 1, NUMBER, message, n, frame, sizeof frame, 0).length;
}

static uint32_t do_checks(uint32_t more)
{
    return pukhtamo_check(&entered.code, message, long_message, out, sizeof out, more).number;
}

static uint32_t do_seals(uint32_t more)
{
    return pukhtamo_seal(&entered, 1, NUMBER, message, long_message, out, sizeof out, more).number;
}

static uint32_t do_takes(uint32_t more)
{
    return pukhtamo_take(&entered, 1, frame, long_frame, more).number;
}

/* The two checks that a seal and a take make: the code's, and the head's by a table. */
static uint32_t do_two_checks(uint32_t more)
{
    uint32_t last = do_checks(more);
    for (uint32_t k = 0; k <= more; k++)
        last ^= pukhtamo_table_remainder(&table, frame, FRONT);
    return last;
}

static uint32_t do_remainders(uint32_t more)
{
    uint32_t last = 0;
    for (uint32_t k = 0; k <= more; k++)
        last ^= pukhtamo_table_remainder(&table, message, long_message);
    return last;
}

static void station_rows(void)
{
    struct pair p;
    head("ns", "time");
    hold(CCITT);
    with(CRC, 64, READING);
    time_row("seal, kind 1", "its two checks", READING, p = best_of_calls(do_seals, do_two_checks), 1, 3);
    double seal = p.ours;
    time_row("take, kind 1", "its two checks", READING, p = best_of_calls(do_takes, do_two_checks), 1, 3);
    double take = p.ours;
    with(SUMS, 64, READING);
    time_row("seal, kind 3", "its two checks", READING, best_of_calls(do_seals, do_two_checks), 1, 0);
    time_row("take, kind 3", "its two checks", READING, best_of_calls(do_takes, do_two_checks), 1, 0);
    with(CRC_32, LONGEST, LONGEST - 4);
    time_row("take, kind 1", "its check", LONGEST, best_of_calls(do_takes, do_checks), 1, 1.1);
    with(SUMS, LONGEST, LONGEST - 8);
    time_row("take, kind 3", "its check", LONGEST, best_of_calls(do_takes, do_checks), 1, 1.1);
    head("MB/s", "speed");
    with(SUMS, LONGEST, LONGEST);
    speed_row("kind 3, tuples of 4", "table engine", LONGEST, best_of_calls(do_checks, do_remainders), 4);
    head_alone();
    with(CRC, 64, READING);
    alone_row("check, kind 1", READING, best_of_calls(do_checks, do_remainders).ours, 150);
    with(PARITY, 64, READING);
    alone_row("check, kind 2", READING, best_of_calls(do_checks, do_remainders).ours, 0);
    with(SUMS, 64, READING);
    alone_row("check, kind 3", READING, best_of_calls(do_checks, do_remainders).ours, 0);
    alone_row("seal, kind 1", READING, seal, 1000);
    alone_row("take, kind 1", READING, take, 1000);
    alone_row("slicing set", 0, best(do_slicing_set, do_peer_slice_set, 0).ours, 1000);
}

int main(int count, char **words)
{
    if (count > 1)
        rounds = atoi(words[1]);
    for (size_t i = 0; i < BULK; i++)
        message[i] = (uint8_t)((uint32_t)i * 2654435761u >> 13);
    agree_engines();
    agree_linked();
    agree_stations();
    if (!agreed())
        return 1;
    bitwise = pukhtamo_bitwise_new();
    table = pukhtamo_table_new();
    ready_made = pukhtamo_ready_made_new();
    fast = pukhtamo_fast_new();
    slicing = pukhtamo_slicing_new();
    engine_rows();
    set_rows();
    station_rows();
    all_met();
    return 0;
}
