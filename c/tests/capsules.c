/* Capsules: RFC 9297, sections 3.2 and 3.3; WebTransport over HTTP/3, "Session Termination". */
#include "wtransport.h"
#include "check.h"

static const char closing[] = "\x68\x43\x07\x00\x00\x12\x34" "bye";

static void test_close(void) {
  wt_capsule_reader reader = {0};
  wt_capsule capsule = {UNCHANGED, UNCHANGED, UNCHANGED};
  size_t consumed = UNCHANGED;
  uint64_t code = UNCHANGED;
  uint8_t *bytes = exactly(closing, 10);
  CHECK(wt_capsule_read(&reader, bytes, 10, &consumed, &capsule, &code) == WT_OK);
  CHECK(consumed == 10 && capsule.type == WT_CAPSULE_CLOSE_SESSION && capsule.offset == 3);
  CHECK(capsule.length == 7 && reader.skip_remaining == 0 && code == UNCHANGED);
  free(bytes);
  for (size_t size = 0; size < 10; size++) {
    bytes = exactly(closing, size);
    capsule.type = consumed = UNCHANGED;
    CHECK(wt_capsule_read(&reader, bytes, size, &consumed, &capsule, &code) == WT_MORE);
    CHECK(consumed == 0 && reader.skip_remaining == 0 && capsule.type == UNCHANGED && code == UNCHANGED);
    CHECK(wt_capsule_end(&reader, bytes, size, &code) == (size == 0 ? WT_OK : WT_ERROR));
    CHECK(code == (size == 0 ? UNCHANGED : WT_H3_MESSAGE_ERROR));
    code = UNCHANGED;
    free(bytes);
  }
  CHECK(wt_capsule_read(&reader, NULL, 0, &consumed, &capsule, &code) == WT_MORE && consumed == 0);
  CHECK(wt_capsule_end(&reader, NULL, 0, &code) == WT_OK && code == UNCHANGED);
}

/* Unknown capsules are skipped, also where their value comes in pieces. */
static void test_skipped(void) {
  static uint8_t zeros[4900];
  wt_capsule_reader reader = {0};
  wt_capsule capsule;
  size_t consumed = UNCHANGED;
  uint64_t code = UNCHANGED;
  uint8_t *bytes = exactly("\x17\x03" "abc\x00\x01x\x68\x43\x07\x00\x00\x12\x34" "bye", 18);
  CHECK(wt_capsule_read(&reader, bytes, 18, &consumed, &capsule, &code) == WT_OK);
  CHECK(consumed == 18 && capsule.offset == 11 && capsule.length == 7);
  CHECK(wt_capsule_read(&reader, bytes, 5, &consumed, &capsule, &code) == WT_MORE);
  CHECK(consumed == 5 && reader.skip_remaining == 0);
  CHECK(wt_capsule_read(&reader, bytes, 4, &consumed, &capsule, &code) == WT_MORE);
  CHECK(consumed == 4 && reader.skip_remaining == 1);
  CHECK(wt_capsule_end(&reader, NULL, 0, &code) == WT_ERROR && code == WT_H3_MESSAGE_ERROR);
  code = UNCHANGED;
  CHECK(wt_capsule_read(&reader, bytes + 4, 14, &consumed, &capsule, &code) == WT_OK && consumed == 14);
  CHECK(reader.skip_remaining == 0 && capsule.offset == 7);
  free(bytes);
  bytes = exactly("\x17\x53\x88", 3); /* a value of 5000 bytes */
  CHECK(wt_capsule_read(&reader, bytes, 3, &consumed, &capsule, &code) == WT_MORE);
  CHECK(consumed == 3 && reader.skip_remaining == 5000);
  free(bytes);
  CHECK(wt_capsule_read(&reader, zeros, 100, &consumed, &capsule, &code) == WT_MORE);
  CHECK(consumed == 100 && reader.skip_remaining == 4900);
  CHECK(wt_capsule_read(&reader, zeros, 4900, &consumed, &capsule, &code) == WT_MORE);
  CHECK(consumed == 4900 && reader.skip_remaining == 0 && code == UNCHANGED);
  CHECK(wt_capsule_end(&reader, NULL, 0, &code) == WT_OK);
}

/* The value of a capsule that closes a session has at most 4 + 1024 bytes. */
static void test_longest(void) {
  static uint8_t bytes[16 + WT_MAX_CAPSULE_VALUE + 1];
  wt_capsule_reader reader = {0};
  wt_capsule capsule;
  size_t consumed = UNCHANGED;
  uint64_t code = UNCHANGED;
  memcpy(bytes, "\xc0\x00\x00\x00\x00\x00\x28\x43\xc0\x00\x00\x00\x00\x00\x04\x04", 16);
  CHECK(wt_capsule_read(&reader, bytes, WT_MAX_CAPSULE_REST, &consumed, &capsule, &code) == WT_MORE && consumed == 0);
  CHECK(wt_capsule_read(&reader, bytes, 1044, &consumed, &capsule, &code) == WT_OK && consumed == 1044);
  CHECK(capsule.offset == 16 && capsule.length == WT_MAX_CAPSULE_VALUE);
  bytes[15] = 5;
  CHECK(wt_capsule_read(&reader, bytes, 1045, &consumed, &capsule, &code) == WT_ERROR);
  CHECK(code == WT_H3_DATAGRAM_ERROR && consumed == 0 && reader.skip_remaining == 0);
  code = consumed = UNCHANGED;
  CHECK(wt_capsule_read(&reader, bytes, 16, &consumed, &capsule, &code) == WT_ERROR);
  CHECK(code == WT_H3_DATAGRAM_ERROR && consumed == 0);
}

void test_capsules(void) {
  test_close();
  test_skipped();
  test_longest();
}
