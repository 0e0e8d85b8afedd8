// A bank cleaned, beside the proved check of the cleaned bank, interleaved; of each the best of many rounds. Before each round the bank is as it came in.
#include <stdint.h>
#include <stdio.h>
#include <stdlib.h>
#include <string.h>
#include <zlib.h>
#include "now.h"

uint8_t bank_check(const uint8_t *bytes, size_t n);
size_t bank_clean(uint8_t *bank, size_t n, uint32_t *runs, size_t numbers, uint16_t *sectors, size_t held, size_t *told, size_t counts);

enum { LENGTH = 491 * 512, MOST_RUNS = 125696, MOST_SECTORS = 491, SOUND = 0x06, DONE = 0 };

static uint8_t came_in[LENGTH], bank[LENGTH];
static uint32_t runs[2 * MOST_RUNS];
static uint16_t sectors[MOST_SECTORS];
static size_t told[2];

static void put(size_t at, uint32_t number) {
    for (int k = 0; k < 4; k++) came_in[at + k] = number >> (24 - 8 * k);
}

// So many bodies, each of the share of what the table leaves that is given in percent, and behind each a gap in which every `step`th byte is old.
static void lay_out(size_t count, size_t percent, size_t step) {
    size_t table = 8 + 12 * count, share = (LENGTH - table) / count;
    memset(came_in, 0xff, LENGTH);
    memcpy(came_in, "\x04\x00\x01", 3);
    came_in[3] = count;
    for (size_t i = 0; i < count; i++) {
        size_t from = table + i * share, end = i + 1 < count ? from + share : LENGTH;
        size_t size = (end - from) * percent / 100;
        for (size_t k = 0; k < size; k++) came_in[from + k] = rand() >> 7;
        for (size_t k = from + size; step > 0 && k < end; k += step) came_in[k] = 0;
        put(4 + 12 * i, from);
        put(8 + 12 * i, size);
        put(12 + 12 * i, crc32(0, came_in + from, size));
    }
    put(table - 4, crc32(0, came_in, table - 4));
}

static int compared(const char *what) {
    double clean = 1e18, check = 1e18;
    for (int round = 0; round < 300; round++) {
        memcpy(bank, came_in, LENGTH);
        double start = now();
        size_t said = bank_clean(bank, LENGTH, runs, 2 * MOST_RUNS, sectors, MOST_SECTORS, told, 2);
        double each = now() - start;
        start = now();
        uint8_t verdict = bank_check(bank, LENGTH);
        double beside = now() - start;
        if (each < clean) clean = each;
        if (beside < check) check = beside;
        if (said != DONE || verdict != SOUND) {
            printf("%s: %zu, and then %02x\n", what, said, verdict);
            return 1;
        }
    }
    printf("%-40s %8zu %8zu %10.1f %12.2f\n", what, told[0], told[1], clean, clean / check);
    return 0;
}

int main(void) {
    srand(1);
    printf("%-40s %8s %8s %10s %12s\n", "bank of 251392 bytes", "runs", "sectors", "ns", "to the check");
    lay_out(1, 100, 0);
    if (compared("one body, filling it")) return 1;
    lay_out(30, 100, 0);
    if (compared("30 bodies, filling it")) return 1;
    lay_out(30, 99, 0);
    came_in[LENGTH - 1] = 0;
    if (compared("30 bodies, filling it but for a gap each")) return 1;
    lay_out(30, 50, 0);
    if (compared("30 bodies, filling half of it")) return 1;
    came_in[LENGTH - 1] = 0;
    if (compared("the same, its last byte old")) return 1;
    lay_out(30, 50, 2);
    if (compared("the same, every second byte old")) return 1;
    lay_out(30, 50, 1);
    return compared("the same, every byte old");
}
