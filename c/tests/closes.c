/* Capsules that close a session: WebTransport over HTTP/3, "Session Termination"; RFC 9297, section
   3.2. */
#include "wtransport.h"
#include "check.h"

static void faulty(const uint8_t *value, size_t size) {
  uint32_t reset = UNCHANGED;
  uint64_t code = UNCHANGED;
  CHECK(wt_close_read(value, size, &reset, &code) == WT_ERROR && reset == UNCHANGED && code == WT_H3_DATAGRAM_ERROR);
}

void test_closes(void) {
  static uint8_t longest[WT_MAX_CAPSULE_VALUE + 1];
  uint8_t out[1100];
  uint32_t reset = UNCHANGED;
  uint64_t code = UNCHANGED;
  size_t used = UNCHANGED;
  uint8_t *value = exactly("\x00\x00\x12\x34" "bye", 7);
  CHECK(wt_close_read(value, 7, &reset, &code) == WT_OK && reset == 0x1234 && code == UNCHANGED);
  CHECK(wt_close_read(value, 4, &reset, &code) == WT_OK);
  faulty(value, 3);
  faulty(NULL, 0);
  free(value);
  memset(longest, 'a', sizeof longest);
  CHECK(wt_close_read(longest, WT_MAX_CAPSULE_VALUE, &reset, &code) == WT_OK && reset == 0x61616161);
  faulty(longest, WT_MAX_CAPSULE_VALUE + 1);
  faulty((const uint8_t *)"\x00\x00\x00\x00\xff", 5);

  memset(out, 0xee, sizeof out);
  CHECK(wt_close_write(0x1234, (const uint8_t *)"bye", 3, out, sizeof out, &used) == WT_OK);
  CHECK(used == 10 && memcmp(out, "\x68\x43\x07\x00\x00\x12\x34" "bye", 10) == 0 && out[10] == 0xee);
  memset(out, 0xee, sizeof out);
  CHECK(wt_close_write(0x1234, (const uint8_t *)"bye", 3, out, 9, &used) == WT_BUFFER_TOO_SMALL);
  CHECK(used == 10 && out[0] == 0xee);
  CHECK(wt_close_write(1, NULL, 0, NULL, 0, &used) == WT_BUFFER_TOO_SMALL && used == 7);
  CHECK(wt_close_write(1, longest, WT_MAX_CLOSE_REASON, out, sizeof out, &used) == WT_OK && used == 1032);
  CHECK(wt_close_write(1, longest, WT_MAX_CLOSE_REASON + 1, out, sizeof out, &used) == WT_INVALID && used == 1032);
  CHECK(wt_close_write(1, (const uint8_t *)"\xff", 1, out, sizeof out, &used) == WT_INVALID);
}
