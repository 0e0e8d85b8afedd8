// The proved maker of sector packets beside the same work in ordinary C: all packets of an image, one after another, from 0 to the number that
// is refused. The memory's limit beside them: the packets' data bytes copied, and nothing else. Of each the best of many rounds.
#include <stdio.h>
#include <stdlib.h>
#include <string.h>
#include "now.h"
#include "plain.h"

size_t sender_packet(const uint8_t *image, size_t size, size_t n, size_t p, uint8_t *buffer, size_t room);

enum { SECTOR = 512, N = 491, ROOM = SECTOR + 7, ROUNDS = 100, WAYS = 3, PAST = 5 };

static uint8_t image[N * SECTOR], sent[WAYS][(N + 1) * ROOM];

// The bytes of each sector that is sent, to where its packet would have them.
static size_t copied(size_t every) {
    size_t p = 0;
    for (size_t k = 0; k < N; k += every, p++) memcpy(sent[2] + p * ROOM, image + k * SECTOR, SECTOR);
    return p;
}

static size_t made(int way, size_t every) {
    size_t p = 0;
    if (way == 2) return copied(every);
    for (;; p++) {
        size_t got = (way ? plain_packet : sender_packet)(image, sizeof image, N, p, sent[way] + p * ROOM, ROOM);
        if (got != ROOM) return got == PAST ? p : 0;
    }
}

// One sector in so many is sent, the others are blank.
static int measure(const char *what, size_t every) {
    double best[WAYS] = {1e18, 1e18, 1e18};
    memset(image, 0xff, sizeof image);
    for (size_t k = 0; k < N; k += every)
        for (size_t i = 0; i < SECTOR; i++) image[k * SECTOR + i] = rand() >> 7;
    for (int round = 0; round < ROUNDS; round++) {
        size_t count[WAYS];
        for (int w = 0; w < WAYS; w++) {
            double start = now();
            count[w] = made(w, every);
            double took = now() - start;
            if (took < best[w]) best[w] = took;
        }
        if (count[0] != (N + every - 1) / every || count[1] != count[0] || memcmp(sent[0], sent[1], count[0] * ROOM)) {
            printf("sender: %zu packets and %zu, or other bytes\n", count[0], count[1]);
            return 1;
        }
    }
    printf("%-34s %4d %10.0f %12.2f %12.2f\n", what, N, best[0], best[0] / best[1], best[0] / best[2]);
    return 0;
}

int main(void) {
    srand(1);
    printf("%-34s %4s %10s %12s %12s\n", "sender", "N", "ns", "to plain C", "to memcpy");
    return measure("packets of a full image", 1) || measure("packets, every other sector blank", 2);
}
