/* The exports of Pukhtamo for C. Link crates/exports/out/libexports.a, which `rt lib` makes in crates/exports.
 *
 * An engine is a value of the caller's. Get one from its `new`, copy it as you like, and pass a pointer to it.
 * Its fields are shown for their size alone: to write one by hand breaks what is proved of the calls.
 * A message is a pointer and a length. */
#ifndef PUKHTAMO_H
#define PUKHTAMO_H

#include <stddef.h>
#include <stdint.h>

struct pukhtamo_generator {
    uint8_t degree;
    uint32_t low;
};

/* Steps bit by bit; carries every generator. */
struct pukhtamo_bitwise {
    struct pukhtamo_generator generator;
    uint32_t reg;
};

/* Looks each byte up; carries every generator, and builds its table at set. */
struct pukhtamo_table {
    struct pukhtamo_generator generator;
    uint32_t reg;
    uint32_t entries[256];
};

/* Looks each byte up in fixed numbers; carries X^32 + 04C11DB7 alone. */
struct pukhtamo_ready_made {
    uint32_t reg;
};

/* One product for each byte; carries the low parts of a degree of at most the generator's less 8. */
struct pukhtamo_fast {
    struct pukhtamo_generator generator;
    uint32_t reg;
};

/* Looks sixteen bytes up at a time; carries every generator, and builds its tables at set. */
struct pukhtamo_slicing {
    struct pukhtamo_generator generator;
    uint32_t reg;
    uint32_t tables[16][256];
};

struct pukhtamo_period_answer {
    uint8_t number;  /* 0, or the number of the refusal */
    uint16_t period; /* 0 where there is none up to 32,768 */
    uint16_t steps;
};

/* For each engine:
 *   new                 an engine with a register of zero (X^8 + 1, but for the ready-made engine)
 *   set                 takes up X^degree + low: 0, or 12 for the degree, 13 for the low part, 15 for a generator that
 *                       the engine does not carry; a refusal alters nothing
 *   remainder           the remainder of a message by the generator that the engine holds
 *   remainder_by_bytes  the same, fed byte by byte */
#define PUKHTAMO_ENGINE(name)                                                                               \
    struct pukhtamo_##name pukhtamo_##name##_new(void);                                                     \
    uint8_t pukhtamo_##name##_set(struct pukhtamo_##name *engine, uint8_t degree, uint32_t low);            \
    uint32_t pukhtamo_##name##_remainder(struct pukhtamo_##name *engine, const uint8_t *message, size_t n); \
    uint32_t pukhtamo_##name##_remainder_by_bytes(struct pukhtamo_##name *engine, const uint8_t *message, size_t n);

PUKHTAMO_ENGINE(bitwise)
PUKHTAMO_ENGINE(table)
PUKHTAMO_ENGINE(ready_made)
PUKHTAMO_ENGINE(fast)
PUKHTAMO_ENGINE(slicing)

/* The least i from 1 to 32,768 for which X^i, divided by X^degree + low, leaves 1; a degree from 2 to 32. */
struct pukhtamo_period_answer pukhtamo_period(uint8_t degree, uint32_t low);

#endif
