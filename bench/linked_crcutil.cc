#include "linked.h"

#include <crcutil/generic_crc.h>

// A message goes by four words of 64 bits at a time.
typedef crcutil::GenericCrc<uint64_t, uint64_t, uint64_t, 4> Crc;

extern "C" uint32_t linked_crcutil(const uint8_t *message, size_t n)
{
    static const Crc crc(0xEDB88320, 32, false);
    return (uint32_t)crc.CrcDefault(message, n, 0);
}
