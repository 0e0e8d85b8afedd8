// The hex reader in ordinary C: the contestant of the proved one, with the same checks in the same order.
#include <string.h>
#include "plain.h"

enum { START = 0x10000A00, SECTOR = 512, MOST = 491 };
enum { H1 = 11, H2, H3, H4, H5, H6 };

// The value of a digit in either case, plus 1; 0 for what is no digit.
static const uint8_t values[256] = {
    ['0'] = 1, ['1'] = 2, ['2'] = 3, ['3'] = 4, ['4'] = 5, ['5'] = 6, ['6'] = 7, ['7'] = 8, ['8'] = 9, ['9'] = 10,
    ['A'] = 11, ['B'] = 12, ['C'] = 13, ['D'] = 14, ['E'] = 15, ['F'] = 16,
    ['a'] = 11, ['b'] = 12, ['c'] = 13, ['d'] = 14, ['e'] = 15, ['f'] = 16,
};

static int digit(uint8_t c) { return values[c] - 1; }

// The first byte of a line that can't belong to a record, or one past its end, counted from 1.
static size_t place(const uint8_t *p, const uint8_t *stop) {
    size_t length = stop - p, at = 1, due = 3;
    if (length == 0 || *p != ':') return 1;
    for (; at < length && at < due && digit(p[at]) >= 0; at++)
        if (at == 2) due = 11 + 2 * (digit(p[1]) << 4 | digit(p[2]));
    return at + 1;
}

// The fault of the first faulty line, whose number is left in `line` and whose byte in `byte`; 0 if there is none.
static size_t lines(const uint8_t *text, size_t length, uint8_t *image, size_t size, size_t *line, size_t *byte) {
    const uint8_t *p = text, *end = text + length;
    uint64_t upper = 0, last = 0;
    int over = 0;
    *line = *byte = 1;
    while (p < end) {
        const uint8_t *feed = memchr(p, '\n', end - p), *stop = feed ? feed : end;
        const uint8_t *next = feed ? feed + 1 : end;
        if (feed && stop > p && stop[-1] == '\r') stop--;
        if (over) return H6;
        size_t digits = stop - p;
        if (digits < 11 || digits % 2 == 0 || *p != ':') return *byte = place(p, stop), H1;
        uint8_t record[261], sum = 0;
        size_t count = digits / 2;
        if (count > sizeof record) return *byte = place(p, stop), H1;
        for (size_t k = 0; k < count; k++) {
            int high = digit(p[1 + 2 * k]), low = digit(p[2 + 2 * k]);
            if (high < 0 || low < 0) return *byte = place(p, stop), H1;
            record[k] = high << 4 | low;
            sum += record[k];
        }
        size_t n = record[0];
        if (count != n + 5) return *byte = place(p, stop), H1;
        if (sum != 0) return *byte = 10 + 2 * n, H2;
        uint64_t address = record[1] << 8 | record[2];
        switch (record[3]) {
        case 0: {
            uint64_t start = (upper << 16) + address;
            if (n == 0) break;
            if (start < START || start + n > START + size) return H4;
            if (start < last) return H5;
            memcpy(image + (start - START), record + 4, n);
            last = start + n;
            break;
        }
        case 1:
            if (address != 0 || n != 0) return H3;
            over = 1;
            break;
        case 4:
            if (address != 0 || n != 2) return H3;
            upper = record[4] << 8 | record[5];
            break;
        case 5:
            if (address != 0 || n != 4) return H3;
            break;
        default:
            return H3;
        }
        p = next;
        ++*line;
    }
    return over ? 0 : H6;
}

size_t plain_hex_read(const uint8_t *text, size_t length, size_t n, uint8_t *image, size_t size, size_t *told, size_t room) {
    size_t number = 0, line = 0, byte = 0;
    if (room < 3) return 2;
    if (n < 1 || n > MOST) {
        number = 3;
    } else if (size != n * SECTOR) {
        number = 2;
    } else {
        memset(image, 0xff, size);
        number = lines(text, length, image, size, &line, &byte);
        if (number) memset(image, 0xff, size);
        else line = byte = 0;
    }
    told[0] = number;
    told[1] = line;
    told[2] = byte;
    return number;
}
