// CRC-32C in C, one byte at a time by a table: what the proved function is measured against.
#include <stddef.h>
#include <stdint.h>

static uint32_t table[256];

void c_crc32c_prepare(void) {
    for (uint32_t i = 0; i < 256; i++) {
        uint32_t r = i;
        for (int bit = 0; bit < 8; bit++)
            r = (r >> 1) ^ ((r & 1) * 0x82F63B78u);
        table[i] = r;
    }
}

uint32_t c_crc32c(const uint8_t *bytes, size_t length) {
    uint32_t r = 0xFFFFFFFFu;
    for (size_t i = 0; i < length; i++)
        r = (r >> 8) ^ table[(r ^ bytes[i]) & 0xff];
    return ~r;
}
