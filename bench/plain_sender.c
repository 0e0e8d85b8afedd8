// The sender's sector packets in ordinary C: the contestant of the proved maker, with the same checks in the same order.
#include <string.h>
#include "plain.h"

enum { SECTOR = 512, MOST = 491, ROOM = SECTOR + 7 };

static int blank(const uint8_t *bytes) {
    for (size_t i = 0; i < SECTOR; i++)
        if (bytes[i] != 0xff) return 0;
    return 1;
}

size_t plain_packet(const uint8_t *image, size_t size, size_t n, size_t p, uint8_t *buffer, size_t room) {
    size_t count = 0, sector = 0;
    if (n < 1 || n > MOST) return 3;
    if (size != n * SECTOR || room < ROOM) return 2;
    for (size_t k = 0; k < n; k++)
        if (!blank(image + k * SECTOR) && count++ == p) sector = k + 1;
    if (p >= count) return 5;
    buffer[0] = 0x02;
    buffer[1] = sector >> 8;
    buffer[2] = sector;
    buffer[3] = SECTOR >> 8;
    buffer[4] = SECTOR & 0xff;
    memcpy(buffer + 5, image + (sector - 1) * SECTOR, SECTOR);
    uint8_t sum = 0;
    for (size_t i = 1; i < SECTOR + 5; i++) sum -= buffer[i];
    buffer[SECTOR + 5] = sum;
    buffer[SECTOR + 6] = p + 1 == count ? 0x03 : 0x17;
    return ROOM;
}
