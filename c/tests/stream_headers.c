/* Headers of unidirectional streams: RFC 9114, section 6.2; RFC 9204, section 4.2; and
   draft-ietf-webtrans-http3-02, section 4.1. */
#include "wtransport.h"
#include "check.h"

static const struct {
  const char *bytes;
  size_t size;
  int answer;
  uint64_t type, session, code;
} rows[] = {
  {"\x00", 1, WT_OK, 0x00, 0, 0},
  {"\x02", 1, WT_OK, 0x02, 0, 0},
  {"\x03", 1, WT_OK, 0x03, 0, 0},
  {"\x40\x54\x04", 3, WT_OK, 0x54, 4, 0},
  {"\x40\x54\x00", 3, WT_OK, 0x54, 0, 0},
  {"\x21", 1, WT_OK, 0x21, 0, 0},
  {"\x40\x40", 2, WT_OK, 0x40, 0, 0},
  {"", 0, WT_MORE, 0, 0, 0},
  {"\x40", 1, WT_MORE, 0, 0, 0},
  {"\x40\x54", 2, WT_MORE, 0, 0, 0},
  {"\x40\x54\x05", 3, WT_ERROR, 0, 0, WT_H3_ID_ERROR}, /* a session ID is divisible by 4 */
  {"\x01", 1, WT_ERROR, 0, 0, WT_H3_STREAM_CREATION_ERROR},         /* push streams are not for WebTransport */
};

static void read_row(size_t i) {
  wt_stream_header header = {UNCHANGED, UNCHANGED};
  size_t consumed = UNCHANGED;
  uint64_t code = UNCHANGED;
  uint8_t *bytes = exactly(rows[i].bytes, rows[i].size);
  CHECK(wt_stream_header_read(bytes, rows[i].size, &consumed, &header, &code) == rows[i].answer);
  if (rows[i].answer == WT_OK) {
    CHECK(consumed == rows[i].size && header.type == rows[i].type);
    CHECK(header.session == rows[i].session && code == UNCHANGED);
  } else {
    CHECK(consumed == 0 && header.type == UNCHANGED && header.session == UNCHANGED);
    CHECK(code == (rows[i].answer == WT_ERROR ? rows[i].code : UNCHANGED));
  }
  free(bytes);
}

static void write_row(size_t i) {
  wt_stream_header header = {rows[i].type, rows[i].session};
  uint8_t out[16];
  size_t used = UNCHANGED;
  if (rows[i].answer != WT_OK) return;
  memset(out, 0xee, sizeof out);
  CHECK(wt_stream_header_write(&header, out, sizeof out, &used) == WT_OK);
  CHECK(used == rows[i].size && memcmp(out, rows[i].bytes, used) == 0 && out[used] == 0xee);
  memset(out, 0xee, sizeof out);
  CHECK(wt_stream_header_write(&header, out, rows[i].size - 1, &used) == WT_BUFFER_TOO_SMALL);
  CHECK(used == rows[i].size && out[0] == 0xee);
}

static void refused(uint64_t type, uint64_t session) {
  wt_stream_header header = {type, session};
  size_t used = UNCHANGED;
  CHECK(wt_stream_header_write(&header, NULL, 0, &used) == WT_INVALID && used == UNCHANGED);
}

void test_stream_headers(void) {
  wt_stream_header header = {UNCHANGED, UNCHANGED};
  size_t consumed = UNCHANGED;
  uint64_t code = UNCHANGED;
  for (size_t i = 0; i < sizeof rows / sizeof rows[0]; i++) {
    read_row(i);
    write_row(i);
  }
  CHECK(wt_stream_header_read(NULL, 0, &consumed, &header, &code) == WT_MORE && consumed == 0);
  refused(0x01, 0);
  refused(0x54, 1);
  refused(0x00, 4);
  refused(0x54, UINT64_MAX - 3);
  refused(UINT64_MAX, 0);
}
