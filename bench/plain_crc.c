// CRC-32 in ordinary C: one byte at a time by a table, and eight at a time by eight.
#include <string.h>
#include "plain.h"

static uint32_t table[256], slices[8][256];
static int filled;

static void fill(uint32_t *t) {
    for (uint32_t i = 0; i < 256; i++) {
        uint32_t r = i;
        for (int k = 0; k < 8; k++) r = r & 1 ? (r >> 1) ^ 0xedb88320u : r >> 1;
        t[i] = r;
    }
}

void fill_table(void) { fill(table); }

uint32_t by_table(const uint8_t *bytes, size_t n) {
    uint32_t r = 0xffffffffu;
    while (n--) r = table[(r ^ *bytes++) & 0xff] ^ (r >> 8);
    return ~r;
}

static void fill_slices(void) {
    fill(slices[0]);
    for (int k = 1; k < 8; k++)
        for (int i = 0; i < 256; i++) slices[k][i] = slices[k - 1][i] >> 8 ^ slices[0][slices[k - 1][i] & 0xff];
    filled = 1;
}

uint32_t by_slices(const uint8_t *bytes, size_t n) {
    if (!filled) fill_slices();
    uint32_t r = 0xffffffffu, low, high;
    for (; n >= 8; n -= 8, bytes += 8) {
        memcpy(&low, bytes, 4);
        memcpy(&high, bytes + 4, 4);
        low ^= r;
        r = slices[7][low & 0xff] ^ slices[6][low >> 8 & 0xff] ^ slices[5][low >> 16 & 0xff] ^ slices[4][low >> 24]
            ^ slices[3][high & 0xff] ^ slices[2][high >> 8 & 0xff] ^ slices[1][high >> 16 & 0xff] ^ slices[0][high >> 24];
    }
    while (n--) r = slices[0][(r ^ *bytes++) & 0xff] ^ (r >> 8);
    return ~r;
}

// As the first call of a process is.
uint32_t by_slices_first(const uint8_t *bytes, size_t n) {
    filled = 0;
    return by_slices(bytes, n);
}
