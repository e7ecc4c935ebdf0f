/* What the parts of the benchmark share. */
#ifndef BENCH_H
#define BENCH_H

#include "linked.h"
#include "peers.h"
#include "pukhtamo.h"
#include "pukhtamo_station.h"

#include <stdbool.h>

enum { LONGEST = 4096, BULK = 1 << 20, LIMIT = 32768 };

struct generator {
    uint8_t degree;
    uint32_t low;
};

static const struct generator IEEE = {32, 0x04C11DB7}, SHORT = {16, 0x011B}, CCITT = {16, 0x1021};

/* The low part of a generator with its register at the top of 32 bits. */
static inline uint32_t at_top(struct generator g)
{
    return g.low << (32 - g.degree);
}

extern uint8_t message[BULK];

/* ---- agreement: results are counted, and those that differ are printed */

void same(const char *what, struct generator g, size_t n, uint32_t want, uint32_t got);

void agree_engines(void);
void agree_linked(void);
void agree_stations(void);

/* Prints how many results were compared; whether none differs. */
bool agreed(void);

/* ---- times: best of some rounds */

extern int rounds;

/* A piece of work: the first n bytes of the message, or one call where n is 0. */
typedef uint32_t work(size_t n);

/* A call that is made once and `more` times more. */
typedef uint32_t calls(uint32_t more);

struct pair {
    double ours, theirs;
};

/* The best time of one call of each, in seconds; they are timed in turn. */
struct pair best(work *ours, work *theirs, size_t n);

/* The same of calls that are made many times over: the time of many less that of one, by their number. */
struct pair best_of_calls(calls *ours, calls *theirs);

/* ---- the table */

void head(const char *unit, const char *ratio);
void head_alone(void);

/* A row: two times or speeds, how they compare, and the goal; a goal of 0 is none. */
void speed_row(const char *name, const char *beside, size_t n, struct pair p, double least);
void time_row(const char *name, const char *beside, size_t n, struct pair p, double parts, double most);

/* A row of one time, in nanoseconds. */
void alone_row(const char *name, size_t n, double seconds, double most);

/* The last line. */
void all_met(void);

#endif
