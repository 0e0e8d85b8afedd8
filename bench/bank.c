// The proved check of a whole bank beside zlib's CRC-32 over the same bytes, interleaved; of each the best of many rounds.
#include <stdint.h>
#include <stdio.h>
#include <stdlib.h>
#include <string.h>
#include <zlib.h>
#include "now.h"

uint8_t bank_check(const uint8_t *bytes, size_t n);

enum { LENGTH = 491 * 512, SOUND = 0x06, UNSOUND = 0x1e };

static uint8_t bank[LENGTH];

static void put(size_t at, uint32_t number) {
    for (int k = 0; k < 4; k++) bank[at + k] = number >> (24 - 8 * k);
}

// So many bodies, each of the share of what the table leaves that is given in percent, the rest of it blank.
static void lay_out(size_t count, size_t percent) {
    size_t table = 8 + 12 * count, share = (LENGTH - table) / count;
    memset(bank, 0xff, LENGTH);
    memcpy(bank, "\x04\x00\x01", 3);
    bank[3] = count;
    for (size_t i = 0; i < count; i++) {
        size_t from = table + i * share, end = i + 1 < count ? from + share : LENGTH;
        size_t size = (end - from) * percent / 100;
        for (size_t k = 0; k < size; k++) bank[from + k] = rand() >> 7;
        put(4 + 12 * i, from);
        put(8 + 12 * i, size);
        put(12 + 12 * i, crc32(0, bank + from, size));
    }
    put(table - 4, crc32(0, bank, table - 4));
}

static uint32_t by_check(void) { return bank_check(bank, LENGTH); }
static uint32_t by_zlib(void) { return crc32(0, bank, LENGTH); }

static double timed(uint32_t (*way)(void), size_t calls, uint32_t *got) {
    double start = now();
    for (size_t c = 0; c < calls; c++) {
        *got = way();
        __asm__ volatile("" : : "r"(*got) : "memory");
    }
    return (now() - start) / calls;
}

static int compared(const char *what, uint32_t verdict, size_t calls) {
    double check = 1e18, zlib = 1e18;
    for (int round = 0; round < 300; round++) {
        uint32_t got, crc;
        double each = timed(by_check, calls, &got), beside = timed(by_zlib, 1, &crc);
        if (each < check) check = each;
        if (beside < zlib) zlib = beside;
        if (got != verdict) {
            printf("%s: %02x and not %02x\n", what, got, verdict);
            return 1;
        }
    }
    printf("%-34s %10.1f %12.2f\n", what, check, check / zlib);
    return 0;
}

int main(void) {
    srand(1);
    printf("%-34s %10s %12s\n", "bank of 251392 bytes", "ns", "to zlib");
    lay_out(1, 100);
    if (compared("one body, filling it", SOUND, 1)) return 1;
    lay_out(30, 100);
    if (compared("30 bodies, filling it", SOUND, 1)) return 1;
    lay_out(30, 50);
    if (compared("30 bodies, filling half of it", SOUND, 1)) return 1;
    // found by its header, so that one call is too short to time
    memset(bank, 0xff, LENGTH);
    return compared("blank", UNSOUND, 10000);
}
