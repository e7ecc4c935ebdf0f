/* Kinds 1 to 3 and stations over them, over the table engine, for C. Link
 * crates/exports_station/out/libexports_station.a, which `rt lib` makes in crates/exports_station.
 *
 * A station is not handed out. Each of its calls is given the changes that were made so far, makes them at a new station, one
 * after the other, refused ones included, and then makes the call there.
 * A call with `more` is made so many times more; every time it gives the same answer, and leaves the same bytes.
 * Messages, frames, outputs and changes are a pointer and a length. */
#ifndef PUKHTAMO_STATION_H
#define PUKHTAMO_STATION_H

#include <stddef.h>
#include <stdint.h>

/* A code as a site enters it. Fields that a kind does not use are zero. */
struct pukhtamo_code {
    uint8_t kind;
    uint8_t degree; /* first generator: X^degree + low */
    uint32_t low;
    uint8_t degree2; /* second generator: X^degree2 + low2 */
    uint16_t low2;
    uint8_t tuple; /* bytes in a tuple */
};

enum { PUKHTAMO_ENTER = 1, PUKHTAMO_NARROW = 2, PUKHTAMO_RETIRE = 3 };

/* A change of a book: enter uses all fields, narrow the number and the reach, retire the number alone. */
struct pukhtamo_book_change {
    uint8_t call; /* one of the three above */
    uint8_t number;
    struct pukhtamo_code code;
    uint16_t reach;
};

struct pukhtamo_answer {
    uint8_t number; /* 0, or the number of the refusal */
    size_t place;   /* its place */
    size_t length;  /* of what was written or handed over */
};

/* Whether words of up to reach bytes are admitted under a code. */
struct pukhtamo_answer pukhtamo_admit(const struct pukhtamo_code *code, uint16_t reach);

/* Writes the check of a message at the start of the output. */
struct pukhtamo_answer pukhtamo_check(const struct pukhtamo_code *code, const uint8_t *message, size_t n, uint8_t *out, size_t room, uint32_t more);

/* What one change more answers. */
struct pukhtamo_answer pukhtamo_change(const struct pukhtamo_book_change *changes, size_t count, const struct pukhtamo_book_change *last);

/* Writes the frame of a message at the start of the output; the length is the frame's. */
struct pukhtamo_answer pukhtamo_seal(const struct pukhtamo_book_change *changes, size_t count, uint8_t number, const uint8_t *message, size_t n,
    uint8_t *out, size_t room, uint32_t more);

/* Takes a frame; the length is the message's, which begins at byte 16 of the frame. */
struct pukhtamo_answer pukhtamo_take(const struct pukhtamo_book_change *changes, size_t count, const uint8_t *frame, size_t n, uint32_t more);

/* Takes a frame with a byte planted at a place, and puts the frame's own byte back. */
struct pukhtamo_answer pukhtamo_trial(const struct pukhtamo_book_change *changes, size_t count, uint8_t *frame, size_t n, size_t at, uint8_t byte,
    uint32_t more);

#endif
