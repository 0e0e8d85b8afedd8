// The CRC-32 of the proved crate beside zlib's, a plain byte table and slicing by 8, interleaved; of each the best of many rounds.
#include <stdio.h>
#include <stdlib.h>
#include <zlib.h>
#include "now.h"
#include "plain.h"

uint32_t crc_crc32(const uint8_t *bytes, size_t n);

static uint32_t by_zlib(const uint8_t *bytes, size_t n) { return crc32(0, bytes, n); }

enum { WAYS = 5 };
static crc_of *const ways[WAYS] = {crc_crc32, by_zlib, by_table, by_slices_first, by_slices};

int main(void) {
    static const size_t sizes[] = {16, 64, 128, 256, 512, 1024, 4096, 16384, 65536, 251392};
    static uint8_t bytes[251392 + 3];
    fill_table();
    srand(1);
    for (size_t i = 0; i < sizeof bytes; i++) bytes[i] = rand() >> 7;
    printf("%-12s %10s %9s %13s %21s %21s\n", "CRC-32 of", "ns", "to zlib", "to byte table", "to slicing, 1st call", "to slicing, later");
    for (size_t s = 0; s < sizeof sizes / sizeof *sizes; s++) {
        size_t n = sizes[s], calls = 40000 / (n + 100) + 1;
        double best[WAYS];
        for (int w = 0; w < WAYS; w++) best[w] = 1e18;
        for (int round = 0; round < 300; round++) {
            const uint8_t *from = bytes + round % 4;
            if (from + n > bytes + sizeof bytes) from = bytes;
            uint32_t got[WAYS];
            for (int w = 0; w < WAYS; w++) {
                double start = now();
                for (size_t c = 0; c < calls; c++) {
                    got[w] = ways[w](from, n);
                    __asm__ volatile("" : : "r"(got[w]) : "memory");
                }
                double each = (now() - start) / calls;
                if (each < best[w]) best[w] = each;
                if (got[w] != got[0]) {
                    printf("%zu bytes: %08x by way 0, %08x by way %d\n", n, got[0], got[w], w);
                    return 1;
                }
            }
        }
        printf("%-12zu %10.0f %9.2f %13.2f %21.2f %21.2f\n", n, best[0], best[0] / best[1], best[0] / best[2], best[0] / best[3],
               best[0] / best[4]);
    }
    return 0;
}
