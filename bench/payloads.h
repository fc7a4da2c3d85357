/* The payloads that bench/timing.c reads. */
#include <stdint.h>
#include <string.h>

/* Document 004's appendix: a key and an address. */
static const uint8_t appendix[] = {0xA2, 2, 0x82, 1, 0x50, 0xE6, 0xBF, 0x42, 0x87, 0xC2, 0xD7, 0x61, 0x8D, 0x6A, 0x96, 0x87, 0x44, 0x5F, 0xFD, 0x33, 0xE6, 3, 0x81, 0x42, 0xAF, 0x93};
/* Document 01's M8, an address with a lease; M1, a request that names a network. */
static const uint8_t m8[] = {0xA1, 3, 0x82, 0x42, 0x12, 0x34, 0x19, 0x0E, 0x10};
static const uint8_t m1[] = {0xA1, 5, 0x42, 0xCA, 0xFE};

/* The longest that can be written: eight keys with usage 1, their identifiers from `first` on, a lease of 64 bits, three strings of 16 bytes. */
static size_t longest(uint8_t *b, uint8_t first)
{
    size_t n = 0;
    b[n++] = 0xA5, b[n++] = 2, b[n++] = 0x98, b[n++] = 24;
    for (uint8_t k = 0; k < 8; k++, n += 16) {
        b[n++] = 0x18, b[n++] = first + k, b[n++] = 1, b[n++] = 0x50;
        memset(b + n, k, 16);
    }
    b[n++] = 3, b[n++] = 0x82, b[n++] = 0x42, b[n++] = 0x12, b[n++] = 0x34, b[n++] = 0x1B;
    memset(b + n, 0xFF, 8), n += 8;
    for (uint8_t label = 4; label <= 6; label++, n += 16) {
        b[n++] = label, b[n++] = 0x50;
        memset(b + n, label, 16);
    }
    return n;
}
