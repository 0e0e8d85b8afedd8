// A night for bank 0 in ordinary C: the contestant of the proved sender, with the same checks in the same order, on a record by value. A packet is
// found by its number, at each call, and once more where a packet is made; or in an index, as C would have it.
#include <string.h>
#include "plain.h"

enum { SECTOR = 512, MOST = 491, SLOT = 521, ROOM = SECTOR + 7 };
enum { MODE_START, VERSION, BANK, WRITE_START, PACKET, WRITE_END, MODE_END };
enum { NOT_BEGUN, AT, FINISHED, GAVE_UP };
enum { UNREADABLE, PLAIN, ERROR, TARGET, FIRMWARE, WRITTEN };
enum { SETTLED, SPENT, STOPS };
static const uint8_t asked[] = {0x61, 0x68, 0x62, 0x40, 0, 0x45, 0x64}, answered[] = {0x71, 0x78, 0x72, 0x70, 0, 0x75, 0x74};
static const uint8_t added[] = {0, 8, 1, 0, 0, 0, 0};

struct night {
    size_t n, tries, p, gone;
    int bank, stand, name;
};

struct called {
    struct night night;
    size_t told;
};

struct response {
    int is, name;
    uint8_t result, write, bank;
    uint16_t sector;
    uint32_t crc;
};

// The sectors of all packets, from 1, and how many there are.
struct index {
    size_t count;
    uint16_t sectors[MOST];
};

struct lent {
    const uint8_t *image;
    size_t size;
    uint8_t *buffer;
    size_t room;
    crc_of *crc;
    const struct index *index;
};

// A packet's sector, and how many packets the image has.
struct placed {
    size_t sector, count;
};

static uint32_t number(const uint8_t *at, int width) {
    uint32_t r = 0;
    while (width--) r = r << 8 | *at++;
    return r;
}

static void put(uint8_t *at, uint32_t value, int width) {
    while (width--) at[width] = value, value >>= 8;
}

static uint8_t checksum(const uint8_t *bytes, size_t n) {
    uint8_t sum = 0;
    while (n--) sum -= *bytes++;
    return sum;
}

static int blank(const uint8_t *bytes) {
    for (size_t i = 0; i < SECTOR; i++)
        if (bytes[i] != 0xff) return 0;
    return 1;
}

// ---- where a packet stands

static struct placed survey(const uint8_t *image, size_t n, size_t p) {
    struct placed at = {0, 0};
    for (size_t k = 0; k < n; k++)
        if (!blank(image + k * SECTOR) && at.count++ == p) at.sector = k + 1;
    return at;
}

static void note(const uint8_t *image, size_t n, struct index *index) {
    index->count = 0;
    for (size_t k = 0; k < n; k++)
        if (!blank(image + k * SECTOR)) index->sectors[index->count++] = k + 1;
}

static struct placed place(const struct lent *lent, size_t n, size_t p) {
    if (!lent->index) return survey(lent->image, n, p);
    return (struct placed){p < lent->index->count ? lent->index->sectors[p] : 0, lent->index->count};
}

// ---- a response read

static int in_table_9(uint8_t r) { return r == 0x05 || r == 0x06 || r == 0x07 || r == 0x15 || r == 0x1C || r == 0x1D || r == 0x1E; }

static int may_carry(int error, uint8_t r) { return in_table_9(r) && (error || r != 0x05); }

static int stored(uint8_t r) { return r == 0x06 || r == 0x1D; }

static struct response control(uint8_t code, const uint8_t *parameters, size_t n) {
    struct response r = {.is = UNREADABLE};
    if (n < 1) return r;
    r.result = parameters[0];
    if (code == 0xE0) {
        if (n == 1 && may_carry(1, r.result)) r.is = ERROR;
        return r;
    }
    while (r.name <= MODE_END && (r.name == PACKET || answered[r.name] != code)) r.name++;
    if (r.name > MODE_END || !may_carry(0, r.result) || n != 1u + (r.result == 0x06 ? added[r.name] : 0)) return r;
    if (r.result != 0x06 || !added[r.name]) {
        r.is = PLAIN;
    } else if (r.name == VERSION) {
        r.is = FIRMWARE;
    } else if (parameters[1] <= 1) {
        r.is = TARGET;
        r.bank = parameters[1];
    }
    return r;
}

static struct response written(uint16_t sector, const uint8_t *bytes) {
    struct response r = {.is = UNREADABLE, .sector = sector, .result = bytes[0], .write = bytes[1], .crc = number(bytes + 2, 4)};
    if (!may_carry(0, r.result) || !may_carry(0, r.write)) return r;
    if (r.result != 0x06 && r.write != r.result) return r;
    if (r.crc && !(stored(r.result) && stored(r.write))) return r;
    r.is = WRITTEN;
    return r;
}

static struct response read_response(const uint8_t *d, size_t length) {
    struct response none = {.is = UNREADABLE};
    if (length >= 5 && d[0] == 0x01) {
        if (length != d[1] + 4u || d[length - 2] != checksum(d + 1, length - 3) || d[length - 1] != 0x03) return none;
        return control(d[2], d + 3, length - 5);
    }
    if (length >= 7 && d[0] == 0x02) {
        size_t m = number(d + 3, 2);
        if (length != m + 7 || d[length - 2] != checksum(d + 1, length - 3) || d[length - 1] != 0x03 || m != 6) return none;
        return written(number(d + 1, 2), d + 5);
    }
    return none;
}

// ---- a response judged

static int own(int name, int repeated, int declined, struct response r) {
    if (r.is != PLAIN || r.name != name) return SPENT;
    if (r.result == 0x06) return SETTLED;
    return repeated && r.result == 0x15 ? declined : SPENT;
}

static int judge(struct night at, const struct lent *lent, size_t sector, struct response r) {
    int repeated = at.gone >= 2;
    switch (at.name) {
    case VERSION: return r.is == FIRMWARE ? SETTLED : SPENT;
    case BANK: return r.is != TARGET ? SPENT : r.bank == at.bank ? SETTLED : STOPS;
    case PACKET:
        if (r.is != WRITTEN || r.sector != sector || r.result != 0x06 || !stored(r.write)) return SPENT;
        return r.crc == lent->crc(lent->image + (sector - 1) * SECTOR, SECTOR) ? SETTLED : SPENT;
    case WRITE_END: return own(at.name, repeated, STOPS, r);
    default: return own(at.name, repeated, SETTLED, r);
    }
}

static struct night moved(struct night at, size_t count, int verdict) {
    if (verdict == STOPS || (verdict == SPENT && at.gone >= at.tries)) {
        at.stand = GAVE_UP;
    } else if (verdict == SPENT) {
        at.gone++;
    } else if (at.name == MODE_END) {
        at.stand = FINISHED;
    } else {
        at.gone = 1;
        if (at.name != PACKET || ++at.p == count) at.name++;
    }
    return at;
}

// ---- a request made

static size_t packet(struct night at, const struct lent *lent) {
    uint8_t *b = lent->buffer;
    struct placed placed = place(lent, at.n, at.p);
    b[0] = 0x02;
    put(b + 1, placed.sector, 2);
    put(b + 3, SECTOR, 2);
    memcpy(b + 5, lent->image + (placed.sector - 1) * SECTOR, SECTOR);
    b[SECTOR + 5] = checksum(b + 1, SECTOR + 4);
    b[SECTOR + 6] = at.p + 1 == placed.count ? 0x03 : 0x17;
    return ROOM;
}

static size_t made(struct night at, const struct lent *lent) {
    uint8_t *b = lent->buffer;
    size_t n = at.name == WRITE_START ? 8 : 0;
    if (at.name == PACKET) return packet(at, lent);
    b[0] = 0x01;
    b[1] = n + 1;
    b[2] = asked[at.name];
    if (n) {
        uint32_t start = at.bank ? 0x14000A00 : 0x10000A00;
        put(b + 3, start, 4);
        put(b + 7, start + SECTOR * at.n - 1, 4);
    }
    b[n + 3] = checksum(b + 1, n + 2);
    b[n + 4] = 0x03;
    return n + 5;
}

// ---- the calls

// The refusal, or 0 and the place of the packet that the image has to have.
static size_t look(struct night at, const struct lent *lent, struct placed *placed) {
    size_t p = at.stand != FINISHED && at.name == PACKET ? at.p : 0;
    if (at.n < 1 || at.n > MOST) return 3;
    if (lent->size != at.n * SECTOR) return 2;
    *placed = place(lent, at.n, p);
    if (lent->room < ROOM) return 2;
    if (at.tries < 1 || at.tries > 9) return 7;
    return p < placed->count ? 0 : 8;
}

static struct called goes_on(struct night at, const struct lent *lent) {
    return (struct called){at, at.stand == NOT_BEGUN ? 21 : at.stand == AT ? made(at, lent) : at.stand == FINISHED ? 0 : 20};
}

static struct called start(size_t n, size_t tries, const struct lent *lent) {
    struct night at = {.n = n, .tries = tries, .stand = AT, .name = MODE_START, .gone = 1};
    struct placed placed;
    size_t refusal = look(at, lent, &placed);
    if (!refusal) return goes_on(at, lent);
    at.stand = NOT_BEGUN;
    return (struct called){at, refusal};
}

static struct called heard(struct night at, const uint8_t *d, size_t length, const struct lent *lent) {
    struct response r = read_response(d, length);
    struct placed placed;
    if (at.stand == NOT_BEGUN) return goes_on(at, lent);
    size_t refusal = look(at, lent, &placed);
    if (refusal) return (struct called){at, refusal};
    return goes_on(at.stand == AT ? moved(at, placed.count, judge(at, lent, placed.sector, r)) : at, lent);
}

size_t plain_night(crc_of *crc, int indexed, const uint8_t *image, size_t size, size_t n, size_t tries, const uint8_t *slots,
                   size_t length, uint8_t *buffer, size_t room) {
    struct lent lent = {image, size, buffer, room, crc, 0};
    struct index index;
    for (size_t k = 0; k < length / SLOT; k++)
        if (number(slots + k * SLOT, 2) > SLOT - 2) return 2;
    if (indexed && n >= 1 && n <= MOST && size == n * SECTOR) {
        note(image, n, &index);
        lent.index = &index;
    }
    struct called c = start(n, tries, &lent);
    for (size_t k = 0; k < length / SLOT; k++) {
        const uint8_t *slot = slots + k * SLOT;
        c = heard(c.night, slot + 2, number(slot, 2), &lent);
    }
    return c.told;
}
