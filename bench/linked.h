/* Libraries of other projects, linked from their packages where these are installed. Each works out the remainder by
 * X^32 + 04C11DB7, in its own form: the bits of a byte from the highest down or from the lowest up, and the register zero or
 * all ones before and turned over after. A function that is not linked is null. */
#ifndef LINKED_H
#define LINKED_H

#include <stddef.h>
#include <stdint.h>

#ifdef __cplusplus
extern "C" {
#endif

typedef uint32_t linked(const uint8_t *message, size_t n);

/* zlib: lowest bit first, ones before, turned over after */
linked linked_zlib __attribute__((weak));

/* isa-l, highest bit first, ones before, turned over after: by a table, and by carry-less products */
linked linked_isal_table __attribute__((weak));
linked linked_isal_products __attribute__((weak));

/* crcutil, four words at a time: lowest bit first, zero before, as it is after */
linked linked_crcutil __attribute__((weak));

/* the Rust crate crc: lowest bit first, ones before, turned over after */
linked linked_crc_crate __attribute__((weak));

#ifdef __cplusplus
}
#endif

#endif
