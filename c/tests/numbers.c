/* Numbers: the rows of RFC 9000, appendix A.1, and the limits of section 16. */
#include "wtransport.h"
#include "check.h"

static const struct {
  const char *bytes;
  size_t size;
  uint64_t value;
  int shortest;
} rows[] = {
  {"\xc2\x19\x7c\x5e\xff\x14\xe8\x8c", 8, 151288809941952652u, 1},
  {"\x9d\x7f\x3e\x7d", 4, 494878333, 1},
  {"\x7b\xbd", 2, 15293, 1},
  {"\x25", 1, 37, 1},
  {"\x40\x25", 2, 37, 0},
  {"\x00", 1, 0, 1},
  {"\x3f", 1, 63, 1},
  {"\x40\x40", 2, 64, 1},
  {"\x7f\xff", 2, 16383, 1},
  {"\x80\x00\x40\x00", 4, 16384, 1},
  {"\xbf\xff\xff\xff", 4, 1073741823, 1},
  {"\xc0\x00\x00\x00\x40\x00\x00\x00", 8, 1073741824, 1},
  {"\xff\xff\xff\xff\xff\xff\xff\xff", 8, 4611686018427387903u, 1},
};

static void read_row(size_t i) {
  size_t consumed = UNCHANGED;
  uint64_t value = UNCHANGED;
  uint8_t *bytes = exactly(rows[i].bytes, rows[i].size);
  CHECK(wt_varint_read(bytes, rows[i].size, &value, &consumed) == WT_OK);
  CHECK(value == rows[i].value && consumed == rows[i].size);
  value = UNCHANGED;
  CHECK(wt_varint_read(bytes, rows[i].size - 1, &value, &consumed) == WT_MORE);
  CHECK(value == UNCHANGED && consumed == 0);
  free(bytes);
}

static void write_row(size_t i) {
  uint8_t out[16];
  size_t used = UNCHANGED;
  if (!rows[i].shortest) return;
  memset(out, 0xee, sizeof out);
  CHECK(wt_varint_size(rows[i].value) == rows[i].size);
  CHECK(wt_varint_write(rows[i].value, out, sizeof out, &used) == WT_OK);
  CHECK(used == rows[i].size && memcmp(out, rows[i].bytes, used) == 0 && out[used] == 0xee);
  memset(out, 0xee, sizeof out);
  CHECK(wt_varint_write(rows[i].value, out, rows[i].size - 1, &used) == WT_BUFFER_TOO_SMALL);
  CHECK(used == rows[i].size && out[0] == 0xee);
  CHECK(wt_varint_write(rows[i].value, out, rows[i].size, &used) == WT_OK);
}

void test_numbers(void) {
  size_t used = UNCHANGED;
  uint64_t value = UNCHANGED;
  for (size_t i = 0; i < sizeof rows / sizeof rows[0]; i++) {
    read_row(i);
    write_row(i);
  }
  CHECK(wt_varint_read(NULL, 0, &value, &used) == WT_MORE && used == 0 && value == UNCHANGED);
  used = UNCHANGED;
  CHECK(wt_varint_write(4611686018427387904u, NULL, 0, &used) == WT_INVALID && used == UNCHANGED);
  CHECK(wt_varint_write(UINT64_MAX, NULL, 0, &used) == WT_INVALID && used == UNCHANGED);
  CHECK(wt_varint_write(5, NULL, 0, &used) == WT_BUFFER_TOO_SMALL && used == 1);
  CHECK(wt_varint_size(4611686018427387904u) == 0);
}
