// The writer of hex text in ordinary C: the contestant of the proved one, with the same checks and answers.
#include "plain.h"

enum { START = 0x10000A00, SECTOR = 512, MOST = 491, ROW = 16 };

static int blank(const uint8_t *row) {
    for (size_t i = 0; i < ROW; i++)
        if (row[i] != 0xff) return 0;
    return 1;
}

static uint8_t *digits(uint8_t *to, uint8_t byte) {
    *to++ = "0123456789ABCDEF"[byte >> 4];
    *to++ = "0123456789ABCDEF"[byte & 15];
    return to;
}

static uint8_t *record(uint8_t *to, uint8_t type, uint16_t address, const uint8_t *data, uint8_t n) {
    uint8_t sum = n + (address >> 8) + address + type;
    *to++ = ':';
    to = digits(digits(digits(digits(to, n), address >> 8), address), type);
    for (size_t i = 0; i < n; i++) {
        sum += data[i];
        to = digits(to, data[i]);
    }
    to = digits(to, -sum);
    *to++ = '\r';
    *to++ = '\n';
    return to;
}

size_t plain_rows_length(const uint8_t *image, size_t size) {
    uint32_t upper = 0;
    size_t length = 13;
    if (size % SECTOR || size < SECTOR || size > MOST * SECTOR) return 2;
    for (size_t at = 0; at < size; at += ROW) {
        if (blank(image + at)) continue;
        if ((START + at) >> 16 != upper) {
            upper = (START + at) >> 16;
            length += 17;
        }
        length += 45;
    }
    return length;
}

size_t plain_rows_write(const uint8_t *image, size_t size, uint8_t *text, size_t room) {
    uint32_t upper = 0;
    size_t length = plain_rows_length(image, size);
    if (length == 2 || room < length) return 2;
    for (size_t at = 0; at < size; at += ROW) {
        if (blank(image + at)) continue;
        if ((START + at) >> 16 != upper) {
            upper = (START + at) >> 16;
            text = record(text, 4, 0, (uint8_t[]){upper >> 8, upper}, 2);
        }
        text = record(text, 0, START + at, image + at, ROW);
    }
    record(text, 1, 0, 0, 0);
    return length;
}
