/* Frames that are written: RFC 9114, section 7.1; draft-ietf-webtrans-http3-02, section 4.2. */
#include "wtransport.h"
#include "check.h"

static void write_row(uint64_t type, const char *payload, size_t size, const char *bytes,
                      size_t head) {
  uint8_t out[32];
  size_t used = UNCHANGED;
  const uint8_t *given = (const uint8_t *)payload;
  memset(out, 0xee, sizeof out);
  CHECK(wt_frame_write(type, given, size, out, sizeof out, &used) == WT_OK);
  CHECK(used == head + size && memcmp(out, bytes, used) == 0 && out[used] == 0xee);
  memset(out, 0xee, sizeof out);
  CHECK(wt_frame_write(type, given, size, out, head + size - 1, &used) == WT_BUFFER_TOO_SMALL);
  CHECK(used == head + size && out[0] == 0xee);
  CHECK(wt_frame_write(type, given, size, out, head + size, &used) == WT_OK);
  memset(out, 0xee, sizeof out);
  CHECK(wt_frame_write_head(type, size, out, sizeof out, &used) == WT_OK);
  CHECK(used == head && memcmp(out, bytes, head) == 0 && out[head] == 0xee);
  CHECK(wt_frame_write_head(type, size, NULL, 0, &used) == WT_BUFFER_TOO_SMALL && used == head);
}

static void refused(uint64_t type) {
  uint8_t out[32];
  size_t used = UNCHANGED;
  CHECK(wt_frame_write(type, NULL, 0, out, sizeof out, &used) == WT_INVALID && used == UNCHANGED);
  CHECK(wt_frame_write_head(type, 0, out, sizeof out, &used) == WT_INVALID && used == UNCHANGED);
}

void test_frames(void) {
  uint8_t out[32];
  size_t used = UNCHANGED;
  write_row(WT_FRAME_DATA, "hello", 5, "\x00\x05hello", 2);
  write_row(WT_FRAME_HEADERS, "\x00\x00", 2, "\x01\x02\x00\x00", 2);
  write_row(WT_FRAME_SETTINGS, "\x33\x01", 2, "\x04\x02\x33\x01", 2);
  write_row(0x21, "x", 1, "\x21\x01x", 2);
  write_row(0x40, "x", 1, "\x40\x40\x01x", 3);
  write_row(WT_FRAME_DATA, NULL, 0, "\x00\x00", 2);
  refused(WT_FRAME_WEBTRANSPORT);
  refused(0x02); /* reserved, since HTTP/2 used it: RFC 9114, section 7.2.8 */
  refused(0x07); /* GOAWAY is left to the HTTP/3 stack */
  refused(UINT64_MAX);
  CHECK(wt_frame_write_head(WT_FRAME_DATA, UINT64_MAX, out, sizeof out, &used) == WT_INVALID);

  CHECK(wt_session_frame_write(4, out, sizeof out, &used) == WT_OK);
  CHECK(used == 3 && memcmp(out, "\x40\x41\x04", 3) == 0);
  CHECK(wt_session_frame_write(4, out, 2, &used) == WT_BUFFER_TOO_SMALL && used == 3);
  CHECK(wt_session_frame_write(4, NULL, 0, &used) == WT_BUFFER_TOO_SMALL && used == 3);
  CHECK(wt_session_frame_write(6, out, sizeof out, &used) == WT_INVALID && used == 3);
}
