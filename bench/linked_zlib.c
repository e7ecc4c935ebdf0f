#include "linked.h"

#include <zlib.h>

uint32_t linked_zlib(const uint8_t *message, size_t n)
{
    return (uint32_t)crc32(0, message, (uInt)n);
}
