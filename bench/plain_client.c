// The client in ordinary C: the contestant of the proved one, with the same checks in the same order, on a record that stays in its place.
#include <string.h>
#include "plain.h"

enum { SECTOR = 512, MOST = 491, SLOT = 521, ADDRESS = 16, BUFFER = 14 };
enum { CLOSED, IDLE, CONTROL, WRITE };
enum { NOTHING, GOOD, OTHERWISE };
static const uint32_t starts[2] = {0x10000A00, 0x14000A00};

struct client {
    size_t n;
    int running, next, state, latest;
    uint8_t major, minor;
    uint32_t revision;
    uint8_t opener[ADDRESS], received[MOST];
    crc_of *crc;
};

static uint32_t number(const uint8_t *at, int width) {
    uint32_t r = 0;
    while (width--) r = r << 8 | *at++;
    return r;
}

static void put(uint8_t *at, uint32_t value, int width) {
    while (width--) at[width] = value, value >>= 8;
}

static uint8_t checksum(const uint8_t *bytes, size_t n) {
    uint8_t sum = 0;
    while (n--) sum -= *bytes++;
    return sum;
}

static int blank(const uint8_t *bytes, size_t n) {
    for (size_t i = 0; i < n; i++)
        if (bytes[i] != 0xff) return 0;
    return 1;
}

static size_t control(uint8_t *buffer, uint8_t code, const uint8_t *fields, size_t n) {
    buffer[0] = 0x01;
    buffer[1] = n + 1;
    buffer[2] = code;
    memcpy(buffer + 3, fields, n);
    buffer[n + 3] = checksum(buffer + 1, n + 2);
    buffer[n + 4] = 0x03;
    return n + 5;
}

static size_t result(uint8_t *buffer, uint8_t code, uint8_t is) { return control(buffer, code, &is, 1); }

static size_t parameter_error(uint8_t *buffer) { return result(buffer, 0xE0, 0x05); }

static size_t written(uint8_t *buffer, uint16_t sector, uint8_t response, uint8_t write, uint32_t crc) {
    buffer[0] = 0x02;
    put(buffer + 1, sector, 2);
    put(buffer + 3, 6, 2);
    buffer[5] = response;
    buffer[6] = write;
    put(buffer + 7, crc, 4);
    buffer[11] = checksum(buffer + 1, 10);
    buffer[12] = 0x03;
    return 13;
}

static int sound(const struct client *c, const uint8_t *bank, size_t size) {
    size_t count = bank[3], table = 8 + 12 * count;
    if (number(bank, 2) != 0x0400 || bank[2] != 1 || count < 1 || count > 30 || table > size) return 0;
    if (number(bank + table - 4, 4) != c->crc(bank, table - 4)) return 0;
    uint64_t end = table;
    for (size_t i = 0; i < count; i++) {
        const uint8_t *entry = bank + 4 + 12 * i;
        uint64_t from = number(entry, 4), length = number(entry + 4, 4);
        if (length < 1 || from < end || from + length > size) return 0;
        end = from + length;
    }
    end = table;
    for (size_t i = 0; i < count; i++) {
        const uint8_t *entry = bank + 4 + 12 * i;
        uint64_t from = number(entry, 4), length = number(entry + 4, 4);
        if (number(entry + 8, 4) != c->crc(bank + from, length) || !blank(bank + end, from - end)) return 0;
        end = from + length;
    }
    return blank(bank + end, size - end);
}

// Whether the mode is open, and another address opened it.
static int stranger(const struct client *c, const uint8_t *address) {
    return (c->state == CONTROL || c->state == WRITE) && memcmp(address, c->opener, ADDRESS);
}

static size_t packet(struct client *c, uint8_t *target, const uint8_t *marks, const uint8_t *address, const uint8_t *d, size_t m, uint8_t *buffer) {
    uint16_t k = number(d + 1, 2);
    if (stranger(c, address) || c->state != WRITE) return written(buffer, k, 0x15, 0x15, 0);
    if (k < 1 || k > c->n || m < 1 || m > SECTOR || m % 4) return parameter_error(buffer);
    if (marks[k - 1]) return written(buffer, k, 0x06, 0x1C, 0);
    uint8_t *sector = target + (k - 1) * SECTOR;
    const uint8_t *bytes = d + 5;
    int already = !memcmp(sector, bytes, m) && blank(sector + m, SECTOR - m);
    if (!already) {
        memset(sector, 0xff, SECTOR);
        memcpy(sector, bytes, m);
    }
    c->received[k - 1] = 1;
    return written(buffer, k, 0x06, already || blank(bytes, m) ? 0x1D : 0x06, c->crc(sector, SECTOR));
}

static size_t finish(struct client *c, uint8_t *target, const uint8_t *marks, uint8_t *buffer) {
    c->state = CONTROL;
    c->latest = OTHERWISE;
    for (size_t k = 0; k < c->n; k++)
        if (marks[k]) return memset(c->received, 0, MOST), result(buffer, 0x75, 0x1C);
    for (size_t k = 0; k < c->n; k++)
        if (!c->received[k]) memset(target + k * SECTOR, 0xff, SECTOR);
    memset(c->received, 0, MOST);
    if (!sound(c, target, c->n * SECTOR)) return result(buffer, 0x75, 0x1E);
    c->latest = GOOD;
    c->next = !c->running;
    return result(buffer, 0x75, 0x06);
}

static size_t request(struct client *c, uint8_t *target, const uint8_t *marks, const uint8_t *address, const uint8_t *d, size_t parameters,
                      uint8_t *buffer) {
    uint8_t code = d[2], response;
    int state;
    switch (code) {
    case 0x61: response = 0x71, state = IDLE; break;
    case 0x62: response = 0x72, state = CONTROL; break;
    case 0x68: response = 0x78, state = CONTROL; break;
    case 0x40: response = 0x70, state = CONTROL; break;
    case 0x45: response = 0x75, state = WRITE; break;
    case 0x64: response = 0x74, state = CONTROL; break;
    default: return parameter_error(buffer);
    }
    if (parameters != (code == 0x40 ? 8 : 0)) return parameter_error(buffer);
    if (stranger(c, address) || c->state != state) return result(buffer, response, 0x15);
    switch (code) {
    case 0x61:
        c->state = CONTROL;
        c->latest = NOTHING;
        memcpy(c->opener, address, ADDRESS);
        break;
    case 0x62: {
        uint8_t fields[2] = {0x06, !c->running};
        return control(buffer, response, fields, 2);
    }
    case 0x68: {
        uint8_t fields[9] = {0x06, 0x04, 0x00, c->major, c->minor};
        put(fields + 5, c->revision, 4);
        return control(buffer, response, fields, 9);
    }
    case 0x40: {
        uint32_t start = starts[!c->running];
        if (number(d + 3, 4) != start || number(d + 7, 4) != start + SECTOR * c->n - 1) return parameter_error(buffer);
        c->state = WRITE;
        c->next = c->running;
        memset(c->received, 0, MOST);
        break;
    }
    case 0x45:
        return finish(c, target, marks, buffer);
    case 0x64:
        c->state = IDLE;
        c->latest = NOTHING;
        memset(c->opener, 0, ADDRESS);
        memset(c->received, 0, MOST);
        break;
    }
    return result(buffer, response, 0x06);
}

static size_t frame_error(uint8_t *buffer) {
    memcpy(buffer, "\x01\x02\xE0\x07\x17\x03", 6);
    return 6;
}

static size_t step(struct client *c, uint8_t *bank0, size_t size0, uint8_t *bank1, size_t size1, const uint8_t *marks, size_t mark_count,
                   const uint8_t *address, size_t address_length, uint8_t *buffer, size_t room, const uint8_t *d, size_t length) {
    if (c->n < 1 || c->n > MOST) return 3;
    if (size0 != c->n * SECTOR || size1 != c->n * SECTOR || mark_count != c->n || address_length != ADDRESS || room < BUFFER) return 2;
    if (c->state == CLOSED) return 1;
    uint8_t *target = c->running ? bank0 : bank1;
    if (length >= 5 && d[0] == 0x01) {
        if (d[1] < 1 || length != d[1] + 4u || d[length - 2] != checksum(d + 1, length - 3) || d[length - 1] != 0x03)
            return frame_error(buffer);
        return request(c, target, marks, address, d, d[1] - 1, buffer);
    }
    if (length >= 7 && d[0] == 0x02) {
        size_t m = number(d + 3, 2);
        if (length != m + 7 || d[length - 2] != checksum(d + 1, length - 3) || (d[length - 1] != 0x03 && d[length - 1] != 0x17))
            return frame_error(buffer);
        return packet(c, target, marks, address, d, m, buffer);
    }
    return frame_error(buffer);
}

size_t plain_take(crc_of *crc, size_t n, const uint8_t *slots, size_t length, uint8_t *bank0, size_t size0, uint8_t *bank1,
                  size_t size1, const uint8_t *marks, size_t mark_count, const uint8_t *addresses, size_t addresses_length,
                  uint8_t *buffer, size_t room) {
    struct client c = {.n = n, .state = n >= 1 && n <= MOST ? IDLE : CLOSED, .crc = crc};
    size_t told = 0;
    for (size_t k = 0; k < length / SLOT; k++)
        if (number(slots + k * SLOT, 2) > SLOT - 2) return 2;
    if (addresses_length != length / SLOT * ADDRESS) return 2;
    for (size_t k = 0; k < length / SLOT; k++) {
        const uint8_t *slot = slots + k * SLOT;
        const uint8_t *address = addresses + k * ADDRESS;
        told = step(&c, bank0, size0, bank1, size1, marks, mark_count, address, ADDRESS, buffer, room, slot + 2, number(slot, 2));
    }
    return told;
}
