// The proved writer of hex text beside an ordinary one in C, both by the time of the call, and beside objcopy, by the time of the process: the program
// `hexout` too, where its command stands behind the folder for the files.
#include <stdio.h>
#include <stdlib.h>
#include <string.h>
#include "now.h"
#include "plain.h"
#include "process.h"

size_t rows_length(const uint8_t *image, size_t size);
size_t rows_write(const uint8_t *image, size_t size, uint8_t *text, size_t room);

enum { N = 491, SIZE = N * 512, ROW = 16, LONGEST = 707121 };

static uint8_t image[SIZE], text[LONGEST], beside[LONGEST], read_back[LONGEST + 1];

typedef size_t writer(const uint8_t *, size_t, uint8_t *, size_t);
typedef size_t teller(const uint8_t *, size_t);

struct times { double proved, plain; };

static double timed(writer *write, teller *tell, uint8_t *into, size_t right) {
    double start = now();
    size_t said = write ? write(image, SIZE, into, LONGEST) : tell(image, SIZE);
    double took = now() - start;
    if (said != right) {
        printf("rows: said %zu and not %zu\n", said, right);
        exit(1);
    }
    return took;
}

static struct times best(int whole, size_t right) {
    struct times best = {1e18, 1e18};
    for (int round = 0; round < 300; round++) {
        double took = timed(whole ? rows_write : 0, rows_length, text, right);
        double other = timed(whole ? plain_rows_write : 0, plain_rows_length, beside, right);
        if (took < best.proved) best.proved = took;
        if (other < best.plain) best.plain = other;
    }
    if (whole && memcmp(text, beside, right)) {
        printf("rows: the texts differ\n");
        exit(1);
    }
    return best;
}

static void put_file(const char *path, const uint8_t *bytes, size_t size) {
    FILE *f = fopen(path, "wb");
    if (!f || fwrite(bytes, 1, size, f) != size || fclose(f)) exit(1);
}

// What a process wrote has to be the text that was written last.
static void same_file(const char *who, const char *path, size_t length) {
    FILE *f = fopen(path, "rb");
    if (!f || fread(read_back, 1, sizeof read_back, f) != length || memcmp(read_back, text, length)) {
        printf("rows: %s wrote something else\n", who);
        exit(1);
    }
    fclose(f);
}

// Of so many rows one has bytes, the others are blank.
static size_t fill(size_t every) {
    memset(image, 0xff, SIZE);
    for (size_t row = 0; row < SIZE / ROW; row++)
        if (every && row % every == 0)
            for (size_t i = 0; i < ROW; i++) image[row * ROW + i] = rand() >> 7 & 0xfe;
    return plain_rows_length(image, SIZE);
}

static void row(const char *what, struct times t) { printf("%-34s %10.0f %12.2f\n", what, t.proved / 1e3, t.proved / t.plain); }

int main(int count, char **words) {
    if (count < 2) return 2;
    char from[4096], to[4096];
    snprintf(from, sizeof from, "%s/image.bin", words[1]);
    snprintf(to, sizeof to, "%s/text.hex", words[1]);
    srand(1);
    size_t length = fill(1);
    if (length != LONGEST) return 1;
    printf("%-34s %10s %12s\n", "hex text written", "us", "to plain C");
    struct times full = best(1, length);
    row("no row blank", full);
    row("its length alone", best(0, length));
    put_file(from, image, SIZE);
    char *const arguments[] = {"objcopy", "-I", "binary", "-O", "ihex", "--change-section-address", ".data=0x10000A00", from, to, 0};
    double tool = process(arguments, 0, 0);
    same_file("objcopy", to, length);
    // the least that a process can take for it: one that copies the text
    char again[4096];
    snprintf(again, sizeof again, "%s/again.hex", words[1]);
    char *const copies[] = {"cp", to, again, 0};
    double copy = process(copies, 0, 0), own = 0;
    if (count > 2) {
        own = process(words + 2, from, to);
        same_file("hexout", to, length);
    }
    row("every other row blank", best(1, fill(2)));
    row("all blank", best(1, fill(0)));
    printf("\n%-34s %10s %12s\n", "beside objcopy's process", "us", "to objcopy");
    printf("%-34s %10.0f\n", "objcopy", tool / 1e3);
    printf("%-34s %10.0f %12.2f\n", "cp of its text, a process too", copy / 1e3, copy / tool);
    printf("%-34s %10.0f %12.2f\n", "the call", full.proved / 1e3, full.proved / tool);
    if (count > 2) printf("%-34s %10.0f %12.2f\n", "hexout, a process too", own / 1e3, own / tool);
    return 0;
}
