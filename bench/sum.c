// The frame checksum of the proved crate beside a plain loop and a copy of the same bytes, the least that memory asks.
#include <stdint.h>
#include <stdio.h>
#include <stdlib.h>
#include <string.h>
#include "now.h"

uint8_t frame_checksum(const uint8_t *bytes, size_t n);

enum { LENGTH = 519, WAYS = 3, CALLS = 200 };
static uint8_t bytes[LENGTH], copy[LENGTH];

static uint8_t by_loop(const uint8_t *from, size_t n) {
    uint8_t sum = 0;
    while (n--) sum -= *from++;
    return sum;
}

static uint8_t by_copy(const uint8_t *from, size_t n) {
    memcpy(copy, from, n);
    return 0;
}

typedef uint8_t way(const uint8_t *, size_t);
static way *const volatile ways[WAYS] = {frame_checksum, by_loop, by_copy};

int main(void) {
    double best[WAYS] = {1e18, 1e18, 1e18};
    srand(1);
    for (int i = 0; i < LENGTH; i++) bytes[i] = rand() >> 7;
    for (int round = 0; round < 2000; round++) {
        uint8_t got[WAYS];
        for (int w = 0; w < WAYS; w++) {
            way *const of = ways[w];
            double start = now();
            for (int c = 0; c < CALLS; c++) {
                got[w] = of(bytes, LENGTH);
                __asm__ volatile("" : : "r"(got[w]) : "memory");
            }
            double each = (now() - start) / CALLS;
            if (each < best[w]) best[w] = each;
        }
        if (got[0] != got[1]) {
            printf("checksum: %02x, plain %02x\n", got[0], got[1]);
            return 1;
        }
    }
    printf("%-34s %10s %12s %12s\n", "checksum of", "ns", "to plain C", "to memcpy");
    printf("%-34d %10.1f %12.2f %12.2f\n", LENGTH, best[0], best[0] / best[1], best[0] / best[2]);
    return 0;
}
