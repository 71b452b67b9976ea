/* Frames that are read: RFC 9114, sections 6.2.1, 7.1, 7.2 and 9. */
#include "wtransport.h"
#include "check.h"

/* a frame of unknown type 0x02 with 5000 bytes, DATA, HEADERS, an unknown frame of 1 byte */
static size_t make_stream(uint8_t *s) {
  size_t n = 0;
  memcpy(s, "\x02\x53\x88", 3);
  n = 3 + 5000;
  memset(s + 3, 0, 5000);
  memcpy(s + n, "\x00\x03" "abc" "\x01\x02" "hi" "\x0d\x01x", 12);
  return n + 12;
}

/* the frames of a stream that comes k bytes at a time, of which what is left is given again */
static void piecewise(size_t k) {
  static uint8_t s[5100], held[WT_MAX_FRAME_REST + 5100];
  size_t size = make_stream(s), have = 0, at = 0, frames = 0, most = 0;
  uint64_t code = UNCHANGED;
  wt_reader reader;
  CHECK(wt_reader_new(WT_READ_BI_REMOTE, &reader) == WT_OK);
  for (;;) {
    size_t consumed;
    wt_frame frame;
    uint8_t *bytes = exactly(held, have);
    int answer = wt_read_frame(&reader, bytes, have, &consumed, &frame, &code);
    if (answer == WT_OK) {
      frames++;
      CHECK(frame.offset + frame.length == consumed);
      if (frames == 1) CHECK(frame.type == 0 && frame.length == 3 && !memcmp(bytes + frame.offset, "abc", 3));
      if (frames == 2) CHECK(frame.type == 1 && frame.length == 2 && !memcmp(bytes + frame.offset, "hi", 2));
    } else if (answer != WT_MORE) {
      free(bytes);
      break;
    }
    free(bytes);
    memmove(held, held + consumed, have - consumed);
    have -= consumed;
    if (have > most) most = have;
    if (answer == WT_MORE) {
      size_t take = size - at < k ? size - at : k;
      if (at == size) break;
      memcpy(held + have, s + at, take);
      have += take;
      at += take;
    }
  }
  CHECK(frames == 2 && have == 0 && reader.skip_remaining == 0 && reader.first == 0 && code == UNCHANGED);
  CHECK(most <= 16);
  CHECK(wt_read_end(&reader, held, have, &code) == WT_OK);
}

static void faulty(uint8_t kind, uint8_t first, const char *given, size_t size, uint64_t expected) {
  wt_reader reader = {kind, first, 0};
  size_t consumed = UNCHANGED;
  uint64_t code = UNCHANGED;
  wt_frame frame = {97, 97, 97, 97};
  uint8_t *bytes = exactly(given, size);
  CHECK(wt_read_frame(&reader, bytes, size, &consumed, &frame, &code) == WT_ERROR);
  CHECK(code == expected && consumed == 0 && frame.type == 97);
  CHECK(reader.kind == kind && reader.first == first && reader.skip_remaining == 0);
  free(bytes);
}

static void refused(wt_reader reader) {
  wt_reader same = reader;
  size_t consumed = UNCHANGED;
  uint64_t code = UNCHANGED;
  wt_frame frame = {97, 97, 97, 97};
  CHECK(wt_read_frame(&reader, NULL, 0, &consumed, &frame, &code) == WT_INVALID);
  CHECK(consumed == UNCHANGED && code == UNCHANGED && frame.type == 97);
  CHECK(reader.kind == same.kind && reader.first == same.first && reader.skip_remaining == same.skip_remaining);
  CHECK(wt_read_end(&reader, NULL, 0, &code) == WT_INVALID && code == UNCHANGED);
}

static void test_ends(void) {
  wt_reader reader;
  wt_frame frame;
  size_t consumed = UNCHANGED;
  uint64_t code = UNCHANGED;
  CHECK(wt_reader_new(WT_READ_CONTROL, &reader) == WT_OK);
  CHECK(wt_read_frame(&reader, NULL, 0, &consumed, &frame, &code) == WT_MORE && consumed == 0);
  CHECK(wt_read_end(&reader, NULL, 0, &code) == WT_OK && code == UNCHANGED);
  CHECK(wt_read_frame(&reader, (const uint8_t *)"\x04", 1, &consumed, &frame, &code) == WT_MORE);
  CHECK(consumed == 0 && wt_read_end(&reader, (const uint8_t *)"\x04", 1, &code) == WT_ERROR);
  CHECK(code == WT_H3_FRAME_ERROR);
  CHECK(wt_read_frame(&reader, (const uint8_t *)"\x0d\x05x", 3, &consumed, &frame, &code) == WT_MORE);
  code = UNCHANGED;
  CHECK(consumed == 3 && reader.skip_remaining == 4 && wt_read_end(&reader, NULL, 0, &code) == WT_ERROR);
  CHECK(code == WT_H3_FRAME_ERROR);
}

void test_reader(void) {
  wt_reader kind4 = {4, 0, 0}, first2 = {0, 2, 0}, far = {0, 0, UINT64_MAX},
            above = {0, 0, 1ull << 62}, last = {0, 0, (1ull << 62) - 1};
  wt_frame frame;
  size_t consumed;
  uint64_t code = UNCHANGED;
  for (size_t k = 1; k < 5100; k = k * 2 + 1) piecewise(k);
  test_ends();
  CHECK(wt_reader_new(4, &first2) == WT_INVALID && first2.first == 2);
  refused(kind4);
  refused(first2);
  refused(far);
  refused(above);
  /* DATA on a control stream, SETTINGS on a request's: table 1 of RFC 9114 */
  faulty(WT_READ_CONTROL, 1, "\x00\x00", 2, WT_H3_FRAME_UNEXPECTED);
  faulty(WT_READ_BI_REMOTE, 1, "\x04\x00", 2, WT_H3_FRAME_UNEXPECTED);
  faulty(WT_READ_BI_LOCAL, 0, "\x40\x41\x00", 3, WT_H3_FRAME_UNEXPECTED);
  faulty(WT_READ_SESSION, 0, "\x40\x41\x00", 3, WT_H3_FRAME_UNEXPECTED);
  faulty(WT_READ_BI_REMOTE, 0, "\x40\x41\x00", 3, WT_H3_FRAME_ERROR); /* not the first frame */
  faulty(WT_READ_BI_REMOTE, 1, "\x40\x41\x01", 3, WT_H3_ID_ERROR); /* no session ID */
  faulty(WT_READ_BI_REMOTE, 1, "\x00\x50\x01", 3, WT_H3_EXCESSIVE_LOAD); /* 4097 bytes */
  {
    wt_reader reader;
    uint8_t *bytes = exactly("\x40\x41\x04...", 6);
    CHECK(wt_reader_new(WT_READ_BI_REMOTE, &reader) == WT_OK);
    CHECK(wt_read_frame(&reader, bytes, 6, &consumed, &frame, &code) == WT_OK && consumed == 3);
    CHECK(frame.type == WT_FRAME_WEBTRANSPORT && frame.session == 4 && frame.length == 0);
    free(bytes);
  }
  CHECK(wt_read_frame(&last, (const uint8_t *)"abc", 3, &consumed, &frame, &code) == WT_MORE);
  CHECK(consumed == 3 && last.skip_remaining == (1ull << 62) - 4 && code == UNCHANGED);
}
