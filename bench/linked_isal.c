#include "linked.h"

#include <immintrin.h>
#include <isa-l/crc.h>

uint32_t linked_isal_table(const uint8_t *message, size_t n)
{
    return crc32_ieee_base(0, (uint8_t *)message, n);
}

/* isa-l leaves the upper halves of the vector registers in use, which slows down all later code that has only the lower ones. */
__attribute__((target("avx"))) static void clear_upper_halves(void)
{
    _mm256_zeroupper();
}

uint32_t linked_isal_products(const uint8_t *message, size_t n)
{
    uint32_t r = crc32_ieee(0, message, n);
    if (__builtin_cpu_supports("avx"))
        clear_upper_halves();
    return r;
}
