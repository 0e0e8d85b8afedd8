// What is written in ordinary C, to be measured beside the proved code.
#include <stddef.h>
#include <stdint.h>

typedef uint32_t crc_of(const uint8_t *bytes, size_t n);

// A byte table that is there from the start, and slicing by 8 with tables that the first call fills.
void fill_table(void);
crc_of by_table, by_slices, by_slices_first;

size_t plain_hex_read(const uint8_t *text, size_t length, size_t n, uint8_t *image, size_t size, size_t *told, size_t room);

size_t plain_packet(const uint8_t *image, size_t size, size_t n, size_t p, uint8_t *buffer, size_t room);

size_t plain_take(crc_of *crc, size_t n, const uint8_t *slots, size_t length, uint8_t *bank0, size_t size0, uint8_t *bank1,
                  size_t size1, const uint8_t *marks, size_t mark_count, const uint8_t *addresses, size_t addresses_length,
                  uint8_t *buffer, size_t room);

// With `indexed`, the packets' sectors are noted once, at the start.
size_t plain_night(crc_of *crc, int indexed, const uint8_t *image, size_t size, size_t n, size_t tries, const uint8_t *slots,
                   size_t length, uint8_t *buffer, size_t room);

size_t plain_rows_length(const uint8_t *image, size_t size);
size_t plain_rows_write(const uint8_t *image, size_t size, uint8_t *text, size_t room);
