// A whole night of the proved sender beside the same work in ordinary C, without a radio: every request made, every response read, none lost. The C
// finds its packets by number, as the proved code does, or in an index; each with a byte table's CRC-32 and with zlib's. Of each the best of many rounds.
#include <stdio.h>
#include <stdlib.h>
#include <string.h>
#include <zlib.h>
#include "now.h"
#include "plain.h"

size_t night_take(const uint8_t *image, size_t size, size_t n, size_t tries, const uint8_t *slots, size_t length, uint8_t *buffer, size_t room);
size_t sender_packet(const uint8_t *image, size_t size, size_t n, size_t p, uint8_t *buffer, size_t room);

enum { SECTOR = 512, N = 491, SLOT = 521, ROOM = SECTOR + 7, TRIES = 3, ROUNDS = 40, PAST = 5 };
enum { PROVED, TABLE, ZLIB, INDEX_TABLE, INDEX_ZLIB, SURVEYS, WAYS };

static uint8_t image[N * SECTOR], slots[(N + 6) * SLOT];
static size_t count, packets;

static uint32_t by_zlib(const uint8_t *bytes, size_t n) { return crc32(0, bytes, n); }

static void put(uint8_t *at, uint32_t value, int width) {
    while (width--) at[width] = value, value >>= 8;
}

// The next slot: a response that begins so, with its checksum and footer.
static void respond(const uint8_t *front, size_t length) {
    uint8_t *slot = slots + SLOT * count++, sum = 0;
    put(slot, length + 2, 2);
    memcpy(slot + 2, front, length);
    for (size_t i = 1; i < length; i++) sum -= front[i];
    slot[length + 2] = sum;
    slot[length + 3] = 0x03;
}

static void control(uint8_t code, const char *fields, size_t n) {
    uint8_t d[12] = {0x01, n + 2, code, 0x06};
    memcpy(d + 4, fields, n);
    respond(d, n + 4);
}

static void written(size_t k) {
    uint8_t d[11] = {0x02, k >> 8, k, 0, 6, 0x06, 0x06};
    put(d + 7, by_zlib(image + (k - 1) * SECTOR, SECTOR), 4);
    respond(d, 11);
}

static void differs(const char *what, size_t at) {
    printf("night: %s differs at %zu\n", what, at);
    exit(1);
}

// The looks at all sectors that the proved code has in a night, and nothing else: one at the start, one at each event, one for each packet made. A
// number behind the last packet comes to one.
static size_t surveys(uint8_t *buffer) {
    for (size_t i = 0; i < 1 + count + packets; i++)
        if (sender_packet(image, sizeof image, N, N, buffer, ROOM) != PAST) differs("a survey", i);
    return 0;
}

static size_t run(int way, size_t heard, uint8_t *buffer) {
    if (way == SURVEYS) return surveys(buffer);
    if (way == PROVED) return night_take(image, sizeof image, N, TRIES, slots, heard * SLOT, buffer, ROOM);
    return plain_night(way % 2 ? by_table : by_zlib, way >= INDEX_TABLE, image, sizeof image, N, TRIES, slots, heard * SLOT, buffer, ROOM);
}

// One sector in so many is sent, the others are blank.
static void measure(const char *what, size_t every) {
    double best[WAYS];
    memset(image, 0xff, sizeof image);
    packets = (N + every - 1) / every;
    count = 0;
    control(0x71, "", 0);
    control(0x78, "\x04\x00\x01\x02\x00\x00\x00\x03", 8);
    control(0x72, "\x00", 1);
    control(0x70, "", 0);
    for (size_t k = 0; k < N; k += every) {
        for (size_t i = 0; i < SECTOR; i++) image[k * SECTOR + i] = rand() >> 7;
        written(k + 1);
    }
    control(0x75, "", 0);
    control(0x74, "", 0);

    // request by request
    for (size_t heard = 0; heard <= count; heard++) {
        uint8_t buffer[2][ROOM] = {{0}};
        if (run(PROVED, heard, buffer[0]) != run(INDEX_ZLIB, heard, buffer[1]) || memcmp(buffer[0], buffer[1], ROOM)) differs("a request", heard);
    }
    for (int w = 0; w < WAYS; w++) best[w] = 1e18;
    for (int round = 0; round < ROUNDS; round++) {
        uint8_t buffer[WAYS][ROOM] = {{0}};
        for (int w = 0; w < WAYS; w++) {
            double start = now();
            size_t told = run(w, count, buffer[w]);
            double took = now() - start;
            if (took < best[w]) best[w] = took;
            if (told || (w < SURVEYS && memcmp(buffer[w], buffer[PROVED], ROOM))) differs("the end", w);
        }
    }
    printf("%-34s %4d %10.0f %10.0f", what, N, best[PROVED], best[PROVED] / packets);
    for (int w = TABLE; w < WAYS; w++) printf(" %12.2f", best[PROVED] / best[w]);
    printf("\n");
}

int main(void) {
    fill_table();
    srand(1);
    printf("%-34s %4s %10s %10s %12s %12s %12s %12s %12s\n", "night", "N", "ns", "a packet", "to plain C", "with zlib's", "indexed",
           "and zlib's", "to surveys");
    measure("a full image", 1);
    measure("every other sector blank", 2);
    return 0;
}
