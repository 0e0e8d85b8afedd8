// The proved hex reader beside an ordinary one in C, both by the time of the call, and beside objcopy, by the time of the process. The
// text is that of a full bank: 16 data bytes a line, lines that end in CR LF; then the same with a last line that is no record (H1), which objcopy
// does not take. Called with a folder for objcopy's files.
#include <stdio.h>
#include <stdlib.h>
#include <string.h>
#include "now.h"
#include "plain.h"
#include "process.h"

size_t hex_read(const uint8_t *text, size_t length, size_t n, uint8_t *image, size_t size, size_t *told, size_t room);

enum { N = 491, SIZE = N * 512, START = 0x10000A00, LENGTH = 707121 };

static uint8_t bytes[SIZE], blank[SIZE], image[SIZE], beside[SIZE];
static char text[LENGTH + 1];
static size_t length;

// One record, as the format has it.
static void record(unsigned type, unsigned address, const uint8_t *data, unsigned n) {
    uint8_t sum = n + (address >> 8) + address + type;
    length += snprintf(text + length, sizeof text - length, ":%02X%04X%02X", n, address, type);
    for (unsigned i = 0; i < n; i++) {
        sum += data[i];
        length += snprintf(text + length, sizeof text - length, "%02X", data[i]);
    }
    length += snprintf(text + length, sizeof text - length, "%02X\r\n", (uint8_t)-sum);
}

static void write_out(size_t size) {
    unsigned upper = 0;
    length = 0;
    for (unsigned at = 0; at < size; at += 16) {
        unsigned address = START + at;
        if (address >> 16 != upper) {
            upper = address >> 16;
            record(4, 0, (uint8_t[]){upper >> 8, upper}, 2);
        }
        record(0, address & 0xffff, bytes + at, 16);
    }
    record(1, 0, 0, 0);
}

typedef size_t reader(const uint8_t *, size_t, size_t, uint8_t *, size_t, size_t *, size_t);

// What a reader has to say: its number, the line and the byte. Of a text that it refuses the image is all 0xFF.
struct said { size_t number, line, byte; };

static double timed(reader *by, uint8_t *into, struct said right) {
    size_t told[3] = {99, 99, 99};
    double start = now();
    size_t said = by((const uint8_t *)text, length, N, into, SIZE, told, 3);
    double took = now() - start;
    if (said != right.number || told[0] != said || told[1] != right.line || told[2] != right.byte || memcmp(into, said ? blank : bytes, SIZE)) {
        printf("hex: said %zu, line %zu, byte %zu, or another image\n", said, told[1], told[2]);
        exit(1);
    }
    return took;
}

struct times { double proved, plain; };

static struct times best(struct said right) {
    struct times best = {1e18, 1e18};
    for (int round = 0; round < 300; round++) {
        double took = timed(hex_read, image, right), other = timed(plain_hex_read, beside, right);
        if (took < best.proved) best.proved = took;
        if (other < best.plain) best.plain = other;
    }
    return best;
}

// The best time of objcopy over the text as it stands; what it wrote has to be the bytes.
static double by_objcopy(const char *folder, size_t size) {
    char from[4096], to[4096];
    snprintf(from, sizeof from, "%s/text.hex", folder);
    snprintf(to, sizeof to, "%s/image.bin", folder);
    FILE *f = fopen(from, "wb");
    if (!f || fwrite(text, 1, length, f) != length || fclose(f)) exit(1);
    char *const arguments[] = {"objcopy", "-I", "ihex", "-O", "binary", from, to, 0};
    double best = process(arguments, 0, 0);
    f = fopen(to, "rb");
    if (!f || fread(beside, 1, SIZE, f) != size || memcmp(beside, bytes, size)) {
        printf("hex: objcopy wrote something else\n");
        exit(1);
    }
    fclose(f);
    return best;
}

int main(int count, char **words) {
    if (count != 2) return 2;
    srand(1);
    for (size_t i = 0; i < SIZE; i++) bytes[i] = rand() >> 7;
    memset(blank, 0xff, SIZE);
    write_out(16);
    double idle = by_objcopy(words[1], 16);
    write_out(SIZE);
    if (length != LENGTH) {
        printf("hex: the text has %zu bytes and not %d\n", length, LENGTH);
        return 1;
    }
    double tool = by_objcopy(words[1], SIZE);
    struct times good = best((struct said){0, 0, 0});
    // the end record is the last line, and its last digit becomes a G
    size_t lines = 0;
    for (size_t i = 0; i < length; i++) lines += text[i] == '\n';
    text[length - 3] = 'G';
    struct times bad = best((struct said){11, lines, 11});
    printf("%-34s %10s %12s %12s %12s\n", "hex text", "MB/s", "to plain C", "to objcopy", "its start off");
    printf("%-34s %10.0f %12.2f %12.2f %12.2f\n", "good", length / good.proved * 1e3, good.proved / good.plain, good.proved / tool, good.proved / (tool - idle));
    printf("%-34s %10.0f %12.2f\n", "H1 in its last line", length / bad.proved * 1e3, bad.proved / bad.plain);
    return 0;
}
