#include "keep.h"

/* One byte taken into the sum, bit by bit. */
static uint32_t with_byte(uint32_t sum, uint8_t byte)
{
    sum ^= byte;
    for (int bit = 0; bit < 8; bit++)
        sum = (sum >> 1) ^ (0xedb88320u & (0u - (sum & 1u)));
    return sum;
}

uint32_t checksum(const uint8_t *bytes, size_t length)
{
    uint32_t sum = 0xffffffffu;
    for (size_t i = 0; i < length; i++)
        sum = with_byte(sum, bytes[i]);
    return ~sum;
}
