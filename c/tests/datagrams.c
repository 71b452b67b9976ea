/* Datagrams: RFC 9297, section 2.1. */
#include "wtransport.h"
#include "check.h"

void test_datagrams(void) {
  uint64_t session = UNCHANGED, code = UNCHANGED;
  size_t offset = UNCHANGED, used = UNCHANGED;
  uint8_t out[16];
  uint8_t *bytes = exactly("\x01hello", 6);
  CHECK(wt_datagram_read(bytes, 6, &session, &offset, &code) == WT_OK);
  CHECK(session == 4 && offset == 1 && code == UNCHANGED);
  CHECK(wt_datagram_read(bytes, 1, &session, &offset, &code) == WT_OK && offset == 1);
  free(bytes);
  bytes = exactly("\xd0\x00\x00\x00\x00\x00\x00\x00", 8); /* 2^60 is no quarter stream ID */
  session = offset = UNCHANGED;
  CHECK(wt_datagram_read(bytes, 8, &session, &offset, &code) == WT_ERROR);
  CHECK(session == UNCHANGED && offset == UNCHANGED && code == WT_H3_DATAGRAM_ERROR);
  code = UNCHANGED;
  CHECK(wt_datagram_read(bytes, 7, &session, &offset, &code) == WT_ERROR && code == WT_H3_DATAGRAM_ERROR);
  free(bytes);
  CHECK(wt_datagram_read(NULL, 0, &session, &offset, &code) == WT_ERROR);

  memset(out, 0xee, sizeof out);
  CHECK(wt_datagram_write(4, (const uint8_t *)"hello", 5, out, sizeof out, &used) == WT_OK);
  CHECK(used == 6 && memcmp(out, "\x01hello", 6) == 0 && out[6] == 0xee);
  CHECK(wt_datagram_write(4, (const uint8_t *)"hello", 5, out, 6, &used) == WT_OK && used == 6);
  memset(out, 0xee, sizeof out);
  CHECK(wt_datagram_write(4, (const uint8_t *)"hello", 5, out, 5, &used) == WT_BUFFER_TOO_SMALL);
  CHECK(used == 6 && out[0] == 0xee);
  CHECK(wt_datagram_write(4, NULL, 0, out, sizeof out, &used) == WT_OK && used == 1);
  CHECK(wt_datagram_write(4, NULL, 0, NULL, 0, &used) == WT_BUFFER_TOO_SMALL && used == 1);
  used = UNCHANGED;
  CHECK(wt_datagram_write(5, NULL, 0, out, sizeof out, &used) == WT_INVALID && used == UNCHANGED);
  CHECK(wt_datagram_write(UINT64_MAX - 3, NULL, 0, out, sizeof out, &used) == WT_INVALID);

  CHECK(wt_datagram_write_head(256, out, sizeof out, &used) == WT_OK);
  CHECK(used == 2 && memcmp(out, "\x40\x40", 2) == 0);
  CHECK(wt_datagram_write_head(256, out, 1, &used) == WT_BUFFER_TOO_SMALL && used == 2);
  CHECK(wt_datagram_write_head(3, out, sizeof out, &used) == WT_INVALID);
}
