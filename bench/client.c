// The proved client beside the same work in ordinary C, with a byte table's CRC-32 and with zlib's: a write packet, the end request, a
// whole update. The time of a part is the difference of two runs, with it and without it; of each run the best of many rounds.
#include <stdio.h>
#include <stdlib.h>
#include <string.h>
#include <zlib.h>
#include "now.h"
#include "plain.h"

size_t client_take(size_t n, const uint8_t *slots, size_t length, uint8_t *bank0, size_t size0, uint8_t *bank1, size_t size1,
                   const uint8_t *marks, size_t mark_count, const uint8_t *addresses, size_t addresses_length, uint8_t *buffer, size_t room);

enum { SECTOR = 512, MOST = 491, SLOT = 521, ADDRESS = 16, ROUNDS = 300, WAYS = 4 };
enum { PROVED, TABLE, ZLIB, COPY };

static uint8_t slots[(MOST + 4) * SLOT], addresses[(MOST + 4) * ADDRESS], marks[MOST];
static uint8_t image[MOST * SECTOR], running[MOST * SECTOR], target[WAYS][MOST * SECTOR];
static size_t count;

static uint32_t by_zlib(const uint8_t *bytes, size_t n) { return crc32(0, bytes, n); }

static void put(uint8_t *at, uint32_t value, int width) {
    while (width--) at[width] = value, value >>= 8;
}

// The checksum and the footer behind what stands in the next slot, which is taken.
static void close_slot(size_t length) {
    uint8_t *slot = slots + SLOT * count++, sum = 0;
    put(slot, length, 2);
    for (size_t i = 1; i < length - 2; i++) sum -= slot[2 + i];
    slot[length] = sum;
    slot[length + 1] = 0x03;
}

static void request(uint8_t code, size_t n) {
    uint8_t *d = slots + SLOT * count + 2;
    d[0] = 0x01;
    d[1] = code == 0x40 ? 9 : 1;
    d[2] = code;
    put(d + 3, 0x14000A00, 4);
    put(d + 7, 0x14000A00 + SECTOR * n - 1, 4);
    close_slot(d[1] + 4);
}

static void packet(size_t k) {
    uint8_t *d = slots + SLOT * count + 2;
    d[0] = 0x02;
    put(d + 1, k, 2);
    put(d + 3, SECTOR, 2);
    memcpy(d + 5, image + (k - 1) * SECTOR, SECTOR);
    close_slot(SECTOR + 7);
}

// A sound image of one body that fills it.
static void lay_out(size_t n) {
    size_t size = n * SECTOR;
    memcpy(image, "\x04\x00\x01\x01", 4);
    for (size_t i = 20; i < size; i++) image[i] = rand() >> 7;
    put(image + 4, 20, 4);
    put(image + 8, size - 20, 4);
    put(image + 12, crc32(0, image + 20, size - 20), 4);
    put(image + 16, crc32(0, image, 16), 4);
}

// The memory's limit: each packet's bytes to their sector, and nothing else.
static size_t copied(uint8_t *bank) {
    for (size_t k = 0; k < count; k++)
        if (slots[SLOT * k + 2] == 0x02) {
            const uint8_t *d = slots + SLOT * k + 2;
            memcpy(bank + ((d[1] << 8 | d[2]) - 1) * SECTOR, d + 5, SECTOR);
        }
    return 0;
}

static size_t run(int way, size_t n, uint8_t *buffer) {
    size_t size = n * SECTOR, length = count * SLOT, from = count * ADDRESS;
    if (way == COPY) return copied(target[COPY]);
    if (way == PROVED) return client_take(n, slots, length, running, size, target[PROVED], size, marks, n, addresses, from, buffer, 14);
    return plain_take(way == TABLE ? by_table : by_zlib, n, slots, length, running, size, target[way], size, marks, n, addresses, from, buffer, 14);
}

// The best time of what the slots hold, over a bank that was full of `before`; -1 to leave it as the round before did.
static void timed(size_t n, int before, double best[WAYS]) {
    for (int w = 0; w < WAYS; w++) best[w] = 1e18;
    for (int round = 0; round < ROUNDS; round++) {
        uint8_t buffer[WAYS][14] = {{0}};
        size_t told[WAYS];
        for (int w = 0; w < WAYS; w++) {
            if (before >= 0) memset(target[w], before, n * SECTOR);
            double start = now();
            told[w] = run(w, n, buffer[w]);
            double took = now() - start;
            if (took < best[w]) best[w] = took;
        }
        for (int w = TABLE; w <= ZLIB; w++)
            if (told[w] != told[PROVED] || memcmp(buffer[w], buffer[PROVED], 14) || memcmp(target[w], target[PROVED], n * SECTOR)) {
                printf("client: way %d differs\n", w);
                exit(1);
            }
    }
}

// The copy has a part in what packets take, and none in a request.
static void line(const char *what, size_t n, const double with[WAYS], const double without[WAYS], double parts, int copies) {
    double each[WAYS];
    for (int w = 0; w < WAYS; w++) each[w] = (with[w] - (without ? without[w] : 0)) / parts;
    printf("%-34s %4zu %10.0f %12.2f %12.2f", what, n, each[PROVED], each[PROVED] / each[TABLE], each[PROVED] / each[ZLIB]);
    if (copies) printf(" %12.2f", each[PROVED] / each[COPY]);
    printf("\n");
}

static void measure(size_t n) {
    double begun[WAYS], sent[WAYS], again[WAYS], ended[WAYS], none[WAYS], whole[WAYS];
    lay_out(n);
    count = 0;
    request(0x61, n);
    request(0x40, n);
    timed(n, 0x00, begun);
    request(0x45, n);
    timed(n, 0x00, none);
    count--;
    for (size_t k = 1; k <= n; k++) packet(k);
    timed(n, 0x00, sent);
    timed(n, -1, again);
    request(0x45, n);
    timed(n, 0x00, ended);
    request(0x64, n);
    timed(n, 0x00, whole);
    line("write packet of 512 bytes", n, sent, begun, n, 1);
    line("the same again, nothing stored", n, again, begun, n, 1);
    line("end request, bank sound", n, ended, sent, 1, 0);
    line("end request, all to be erased", n, none, begun, 1, 0);
    line("whole update", n, whole, 0, 1, 1);
}

int main(void) {
    fill_table();
    srand(1);
    printf("%-34s %4s %10s %12s %12s %12s\n", "client", "N", "ns", "to plain C", "with zlib's", "to memcpy");
    measure(32);
    measure(MOST);
    return 0;
}
