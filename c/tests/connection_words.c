/* Structs of no connection and no stream, arrays that are too short, and a table. */
#include "connection.h"

static void endpoints(void) {
  wt_endpoint good = {WT_SIDE_SERVER, 1, 1, 1, 65536, 4096, 1200, {0, 0, 0, 0, 0}}, bad;
  wt_connection c, same;
  memset(&c, 0x55, sizeof c);
  same = c;
  CHECK(wt_connection_new(WT_ABI + 1, &good, &c) == WT_INVALID &&
        wt_connection_new(0, &good, &c) == WT_INVALID);
  bad = good, bad.side = 2;
  CHECK(wt_connection_new(WT_ABI, &bad, &c) == WT_INVALID);
  bad = good, bad.webtransport = 2;
  CHECK(wt_connection_new(WT_ABI, &bad, &c) == WT_INVALID);
  bad = good, bad.datagrams = 2;
  CHECK(wt_connection_new(WT_ABI, &bad, &c) == WT_INVALID);
  bad = good, bad.extended = 2;
  CHECK(wt_connection_new(WT_ABI, &bad, &c) == WT_INVALID);
  bad = good, bad.max_datagram = 65536;
  CHECK(wt_connection_new(WT_ABI, &bad, &c) == WT_INVALID);
  bad = good, bad.reserved[4] = 1;
  CHECK(wt_connection_new(WT_ABI, &bad, &c) == WT_INVALID && !memcmp(&c, &same, sizeof c));
  CHECK(wt_connection_new(WT_ABI, &good, &c) == WT_OK);
}

/* Calls with a struct that no call made: nothing changes. */
static void refused(void) {
  wt_connection c = connection_of(WT_SIDE_SERVER, 1), other;
  wt_stream s, odd, same;
  wt_event e;
  uint32_t number = UNCHANGED;
  uint64_t id = UNCHANGED;
  memset(&other, 0xff, sizeof other);
  memset(&odd, 0xff, sizeof odd);
  memset(&e, 0xff, sizeof e);
  same = odd;
  CHECK(wt_stream_accept(&other, 0, &odd) == WT_INVALID &&
        wt_stream_of_request(&other, 0, &odd) == WT_INVALID);
  CHECK(!memcmp(&odd, &same, sizeof odd));
  CHECK(wt_stream_accept(&c, 0, &s) == WT_OK);
  CHECK(wt_receive(&other, &s, NULL, 0, NULL, 0, NULL, 0, 0, &e, NULL, 0, NULL, 0) == WT_INVALID);
  CHECK(wt_receive(&c, &odd, NULL, 0, NULL, 0, NULL, 0, 0, &e, NULL, 0, NULL, 0) == WT_INVALID);
  CHECK(wt_stream_answer(&odd, 200) == WT_INVALID);
  CHECK(wt_stream_join(&other, &s, 0, &e) == WT_INVALID &&
        wt_stream_join(&c, &odd, 0, &e) == WT_INVALID);
  CHECK(wt_stream_join(&c, &s, 6, &e) == WT_INVALID);
  CHECK(wt_stream_reset(&other, &s, &e) == WT_INVALID &&
        wt_stream_reset(&c, &odd, &e) == WT_INVALID);
  CHECK(wt_stream_stop(&other, &s, &e) == WT_INVALID && wt_stream_stop(&c, &odd, &e) == WT_INVALID);
  CHECK(wt_stream_abandon(&other, &s, &e) == WT_INVALID &&
        wt_stream_abandon(&c, &odd, &e) == WT_INVALID);
  CHECK(wt_stream_overflow(&other, &s, &e) == WT_INVALID &&
        wt_stream_overflow(&c, &odd, &e) == WT_INVALID);
  CHECK(wt_datagram_receive(&other, NULL, 0, &e) == WT_INVALID);
  CHECK(e.kind == UINT32_MAX && e.reserved[3] == UINT64_MAX);
  CHECK(wt_stopped(&other, WT_PURPOSE_CONTROL, &id) == WT_INVALID);
  CHECK(wt_session_known(&other, 0, NULL, 0, &number) == WT_INVALID);
  CHECK(wt_session_known(&c, 0, &odd, 1, &number) == WT_INVALID);
  CHECK(wt_stream_waits(&odd, &number, &id) == WT_INVALID &&
        wt_stream_belongs(&odd, &number, &id) == WT_INVALID);
  CHECK(wt_connection_allows_sessions(&other) == WT_INVALID &&
        wt_connection_unprocessed(&other, 0) == WT_INVALID);
  CHECK(number == UNCHANGED && id == UNCHANGED);
}

/* Several streams where there may be one. */
static void several(void) {
  wt_connection c = connection_of(WT_SIDE_SERVER, 1);
  wt_stream two[2];
  uint32_t known = UNCHANGED;
  CHECK(wt_stream_accept(&c, 0, &two[0]) == WT_OK && wt_stream_accept(&c, 4, &two[1]) == WT_OK);
  CHECK(wt_session_known(&c, 0, two, 2, &known) == WT_INVALID && known == UNCHANGED);
}

/* Each word is changed in each bit: the call refuses it, or goes on as with another state. */
static void changed(void) {
  wt_connection c = connection_of(WT_SIDE_SERVER, 1), other;
  reading *r;
  wt_stream odd;
  wt_event e;
  size_t at, bit, refusals = 0;
  configure(&c, 2, chromium_control, sizeof chromium_control);
  r = request_session(&c, 0);
  CHECK(wt_stream_answer(&r->stream, 200) == WT_OK);
  receive(&c, r, (const uint8_t *)"\x00\x09\x00\x05" "abc", 7, 0);
  for (at = 0; at < 32 + 26; at++) {
    for (bit = 0; bit < 64; bit++) {
      wt_field fields[2];
      uint8_t held[8], out[8];
      int answer;
      memcpy(held, r->held, 8);
      other = c, odd = r->stream;
      if (at < 32)
        other.words[at] ^= UINT64_C(1) << bit;
      else
        odd.words[at - 32] ^= UINT64_C(1) << bit;
      answer = wt_receive(&other, &odd, held, 8, NULL, 0, (const uint8_t *)"de", 2, 0, &e, fields,
                          2, out, 8);
      CHECK(answer == WT_OK || answer == WT_INVALID || answer == WT_BUFFER_TOO_SMALL);
      refusals += answer == WT_INVALID;
      other = c, odd = r->stream;
      if (at < 32)
        other.words[at] ^= UINT64_C(1) << bit;
      else
        odd.words[at - 32] ^= UINT64_C(1) << bit;
      answer = wt_stream_reset(&other, &odd, &e);
      CHECK(answer == WT_OK || answer == WT_INVALID);
    }
  }
  /* the words that are 0, among others */
  CHECK(refusals > 9 * 64);
  free(r);
}

/* The bytes of a capsule that is cut, on the stream of an open session. */
static void rooms_of_capsules(wt_connection *c, reading *r) {
  wt_event e;
  uint8_t out[3];
  CHECK(wt_receive(c, &r->stream, NULL, 0, NULL, 0,
                   (const uint8_t *)"\x00\x05\x00\x03"
                                    "ab",
                   6, 0, &e, NULL, 0, NULL, 0) == WT_BUFFER_TOO_SMALL);
  CHECK(e.kind == WT_EVENT_SKIPPED && e.held == 2);
  CHECK(wt_receive(c, &r->stream, r->held, 2, NULL, 0,
                   (const uint8_t *)"\x00\x05\x00\x03"
                                    "ab",
                   6, 0, &e, NULL, 0, NULL, 0) == WT_OK);
  CHECK(wt_receive(c, &r->stream, r->held, 1, NULL, 0, (const uint8_t *)"c", 1, 0, &e, NULL, 0, out,
                   3) == WT_INVALID);
  CHECK(wt_receive(c, &r->stream, r->held, 2, NULL, 0, (const uint8_t *)"c", 1, 0, &e, NULL, 0, out,
                   2) == WT_BUFFER_TOO_SMALL);
  CHECK(wt_receive(c, &r->stream, r->held, 2, NULL, 0, (const uint8_t *)"c", 1, 0, &e, NULL, 0, out,
                   3) == WT_OK);
  CHECK(e.kind == WT_EVENT_DATAGRAM && e.detail == 0 && e.used == 3 && !memcmp(out, "abc", 3) &&
        e.held == 0);
}

/* An array that is too short: the event says the room, nothing else changes, and the call can be
   made again. A table is refused. */
static void rooms(void) {
  wt_connection c = connection_of(WT_SIDE_SERVER, 1), before;
  reading *r = (reading *)calloc(1, sizeof *r);
  wt_stream same;
  wt_event e;
  wt_field fields[5];
  uint8_t out[100], table[1] = {0};
  if (r == NULL) abort();
  configure(&c, 2, chromium_control, sizeof chromium_control);
  CHECK(wt_stream_accept(&c, 0, &r->stream) == WT_OK);
  receive(&c, r, session_request, sizeof session_request, 0);
  same = r->stream, before = c;
  memset(out, 0x55, sizeof out);
  memset(&e, 0x55, sizeof e);
  CHECK(wt_receive(&c, &r->stream, NULL, 0, table, 1, session_request, 34, 0, &e, fields, 5, out,
                   100) == WT_INVALID);
  CHECK(e.kind == 0x55555555);
  CHECK(wt_receive(&c, &r->stream, NULL, 0, NULL, 0, session_request, 34, 0, &e, NULL, 0, NULL,
                   0) == WT_BUFFER_TOO_SMALL);
  CHECK(e.kind == WT_EVENT_SESSION_REQUESTED && e.fields == 5 && e.used == 64 && e.consumed == 34 &&
        e.held == 0);
  CHECK(wt_receive(&c, &r->stream, NULL, 0, NULL, 0, session_request, 34, 0, &e, fields, 4, out,
                   100) == WT_BUFFER_TOO_SMALL);
  CHECK(wt_receive(&c, &r->stream, NULL, 0, NULL, 0, session_request, 34, 0, &e, fields, 5, out,
                   63) == WT_BUFFER_TOO_SMALL);
  CHECK(!memcmp(&r->stream, &same, sizeof same) && !memcmp(&c, &before, sizeof c) &&
        out[0] == 0x55);
  CHECK(wt_receive(&c, &r->stream, NULL, 0, NULL, 0, session_request, 34, 0, &e, fields, 5, out,
                   64) == WT_OK);
  CHECK(!memcmp(out, ":methodCONNECT:schemehttps:path/:authoritya:protocolwebtransport", 64));
  CHECK(out[64] == 0x55 && fields[4].value_offset + fields[4].value_length == 64);
  CHECK(wt_stream_answer(&r->stream, 200) == WT_OK);
  rooms_of_capsules(&c, r);
  free(r);
}

void test_connection_words(void) {
  CHECK(sizeof(wt_endpoint) == 64 && sizeof(wt_connection) == 256 && sizeof(wt_stream) == 208);
  CHECK(sizeof(wt_event) == 96);
  endpoints();
  refused();
  several();
  changed();
  rooms();
}
