/* Whether kinds and stations give what plain C gives: checks, frames, what is taken from them, and some refusals. */
#include "bench.h"

#include <string.h>

_Static_assert(sizeof(struct pukhtamo_code) == 16, "the fields of a description");
_Static_assert(sizeof(struct pukhtamo_book_change) == 24, "a call, a number, a code and a reach");
_Static_assert(sizeof(struct pukhtamo_answer) == 24, "a number, a place and a length");

enum { HEAD = 16, NUMBER = 5 };

static struct generator of(const struct pukhtamo_code *code)
{
    return (struct generator){code->degree, code->low};
}

static void answers(const char *what, const struct pukhtamo_code *code, size_t n, struct pukhtamo_answer a, uint32_t number, size_t place, size_t length)
{
    same(what, of(code), n, number, a.number);
    same(what, of(code), n, (uint32_t)place, (uint32_t)a.place);
    same(what, of(code), n, (uint32_t)length, (uint32_t)a.length);
}

static void bytes(const char *what, const struct pukhtamo_code *code, size_t n, const uint8_t *want, const uint8_t *got, size_t length)
{
    same(what, of(code), n, 0, (uint32_t)(memcmp(want, got, length) != 0));
}

/* A message of n bytes: its check, its frame, what is taken from that, and that a flip anywhere is noticed. */
static void agree_message(const struct pukhtamo_book_change *entered, size_t n)
{
    static uint8_t check[64], want_check[64], frame[HEAD + LONGEST], want[HEAD + LONGEST];
    const struct pukhtamo_code *code = &entered->code;
    size_t count = peer_check(code, message, n, want_check), length = peer_frame(NUMBER, code, message, n, want);
    answers("check", code, n, pukhtamo_check(code, message, n, check, sizeof check, n % 3), 0, 0, count);
    bytes("check", code, n, want_check, check, count);
    answers("seal", code, n, pukhtamo_seal(entered, 1, NUMBER, message, n, frame, sizeof frame, n % 3), 0, 0, length);
    bytes("frame", code, n, want, frame, length);
    answers("take", code, n, pukhtamo_take(entered, 1, frame, length, n % 3), 0, 0, n);
    size_t at = n * 7 % length;
    same("trial", of(code), n, 0, pukhtamo_trial(entered, 1, frame, length, at, frame[at], n % 3).number);
    same("trial of a flip", of(code), n, 1, pukhtamo_trial(entered, 1, frame, length, at, frame[at] ^ 0x10, n % 3).number != 0);
    bytes("frame after", code, n, want, frame, length);
}

/* Refusals, each with its number and place. */
static void agree_refused(const struct pukhtamo_book_change *entered)
{
    const struct pukhtamo_code *code = &entered->code;
    struct pukhtamo_book_change changes[3] = {*entered, {PUKHTAMO_NARROW, NUMBER, *code, 12}, {PUKHTAMO_RETIRE, NUMBER, *code, 0}};
    struct pukhtamo_code unserved = *code;
    unserved.kind = 4;
    static uint8_t out[HEAD + LONGEST];
    answers("unserved", &unserved, 0, pukhtamo_admit(&unserved, 64), 11, 2, 0);
    answers("no reach", code, 0, pukhtamo_admit(code, 4097), 16, 12, 0);
    answers("in use", code, 0, pukhtamo_change(changes, 1, &changes[0]), 21, 1, 0);
    answers("narrowed", code, 0, pukhtamo_change(changes, 1, &changes[1]), 0, 0, 0);
    answers("narrowed again", code, 0, pukhtamo_change(changes, 2, &changes[1]), 24, 12, 0);
    answers("retired again", code, 0, pukhtamo_change(changes, 3, &changes[2]), 23, 1, 0);
    answers("not held", code, 4, pukhtamo_seal(changes, 3, NUMBER, message, 4, out, sizeof out, 0), 23, 1, 0);
    answers("over reach", code, 20, pukhtamo_seal(changes, 2, NUMBER, message, 20, out, sizeof out, 0), 32, 12, 0);
    answers("no message", code, 0, pukhtamo_seal(changes, 1, NUMBER, message, 0, out, sizeof out, 0), 31, 0, 0);
    answers("no room", code, 4, pukhtamo_seal(changes, 1, NUMBER, message, 4, out, 17, 0), 33, 17, 0);
    answers("short frame", code, 16, pukhtamo_take(changes, 1, out, 16, 0), 41, 16, 0);
    answers("outside", code, 20, pukhtamo_trial(changes, 1, out, 20, 20, 0, 0), 48, 20, 0);
}

static void agree_code(struct pukhtamo_code code, uint16_t reach)
{
    struct pukhtamo_book_change entered = {PUKHTAMO_ENTER, NUMBER, code, reach};
    answers("admission", &code, reach, pukhtamo_admit(&code, reach), 0, 0, 0);
    answers("enter", &code, reach, pukhtamo_change(&entered, 0, &entered), 0, 0, 0);
    size_t check = code.kind == 3 ? 2u * code.tuple : (code.degree + 7u) / 8, most = reach - check;
    for (size_t n = code.tuple; n <= most; n += n < 40 ? code.tuple : 997 * (size_t)code.tuple)
        agree_message(&entered, n);
    agree_message(&entered, most);
    if (reach >= 32)
        agree_refused(&entered);
}

void agree_stations(void)
{
    agree_code((struct pukhtamo_code){1, 8, 0x07, 0, 0, 1}, 15);
    agree_code((struct pukhtamo_code){1, 16, 0x1021, 0, 0, 1}, 4095);
    agree_code((struct pukhtamo_code){1, 24, 0x018301, 0, 0, 1}, 511);
    agree_code((struct pukhtamo_code){1, 32, 0x04C11DB7, 0, 0, 1}, 4096);
    agree_code((struct pukhtamo_code){2, 15, 0x0003, 0, 0, 1}, 4095);
    agree_code((struct pukhtamo_code){2, 31, 0x00000009, 0, 0, 1}, 4096);
    agree_code((struct pukhtamo_code){3, 8, 0x1D, 5, 0x15, 1}, 256);
    agree_code((struct pukhtamo_code){3, 16, 0x1021, 16, 0x8005, 2}, 4096);
    agree_code((struct pukhtamo_code){3, 32, 0x04C11DB7, 16, 0x1021, 4}, 4096);
}
