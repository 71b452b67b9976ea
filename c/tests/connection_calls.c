/* Streams that join sessions and end early, what is known of sessions, and datagrams: the tests of
   the crate tests_webtransport (draft-ietf-webtrans-http3-02, section 4; RFC 9297, section 2; RFC
   9114, 6.2.1). */
#include "connection.h"

static const uint8_t bidi_of_0[] = {0x40, 0x41, 0x00, 0x61, 0x62};
static const uint8_t get[] = {0x01, 0x08, 0x00, 0x00, 0xd1, 0xd7, 0xc1, 0x50, 0x01, 0x61};
static const uint8_t tunnel[] = {0x01, 0x08, 0x00, 0x00, 0xcf, 0x50, 0x03, 0x61, 0x3a, 0x31};

static reading *accept(wt_connection *c, uint64_t id) {
  reading *r = (reading *)calloc(1, sizeof *r);
  if (r == NULL) abort();
  CHECK(wt_stream_accept(c, id, &r->stream) == WT_OK);
  return r;
}

/* Reads the bytes of a stream, which goes on after them. */
static void read_all(wt_connection *c, reading *r, const uint8_t *bytes, size_t size) {
  size_t start = 0, turn;
  for (turn = 0; turn < 5; turn++) {
    receive(c, r, bytes + start, size - start, 0);
    start += r->event.consumed;
  }
}

static uint32_t known_of(const wt_connection *c, uint64_t session, const wt_stream *its) {
  uint32_t known = UNCHANGED;
  CHECK(wt_session_known(c, session, its, its != NULL, &known) == WT_OK);
  return known;
}

static int is_event(const wt_event *e, uint32_t kind, uint32_t detail, uint64_t number) {
  return e->kind == kind && e->detail == detail && e->number == number && e->consumed == 0 &&
         e->length == 0 && e->fields == 0 && e->used == 0;
}

static void joins(void) {
  wt_connection c = connection_of(WT_SIDE_SERVER, 1);
  reading *r = accept(&c, 4);
  uint32_t waits = UNCHANGED, belongs = UNCHANGED;
  uint64_t session = UNCHANGED;
  CHECK(wt_stream_belongs(&r->stream, &belongs, &session) == WT_OK && belongs == 0 && session == 0);
  receive(&c, r, bidi_of_0, 5, 1);
  CHECK(r->event.kind == WT_EVENT_JOINS && r->event.number == 0 && r->event.consumed == 3);
  CHECK(known_of(&c, 0, NULL) == WT_KNOWN_COMING && known_of(&c, 1, NULL) == WT_KNOWN_IMPOSSIBLE);
  CHECK(wt_stream_join(&c, &r->stream, WT_KNOWN_COMING, &r->event) == WT_OK);
  CHECK(is_event(&r->event, WT_EVENT_WAITS, WT_WAITS_SESSION, 0));
  CHECK(wt_stream_waits(&r->stream, &waits, &session) == WT_OK && waits == WT_WAITS_SESSION &&
        session == 0);
  CHECK(wt_stream_belongs(&r->stream, &belongs, &session) == WT_OK && belongs == 1 && session == 0);
  receive(&c, r, bidi_of_0 + 3, 2, 1);
  CHECK(r->event.kind == WT_EVENT_WAITS && r->event.consumed == 0);
  CHECK(wt_stream_join(&c, &r->stream, WT_KNOWN_OPEN, &r->event) == WT_OK);
  CHECK(is_event(&r->event, WT_EVENT_JOINED, 0, 0));
  receive(&c, r, bidi_of_0 + 3, 2, 1);
  CHECK(r->event.kind == WT_EVENT_STREAM_DATA && r->event.offset == 0 && r->event.length == 2);
  receive(&c, r, NULL, 0, 1);
  CHECK(r->event.kind == WT_EVENT_END);
  free(r);
  /* a session that is over */
  r = accept(&c, 8);
  receive(&c, r, bidi_of_0, 5, 0);
  CHECK(wt_stream_join(&c, &r->stream, WT_KNOWN_OVER, &r->event) == WT_OK);
  CHECK(is_event(&r->event, WT_EVENT_STREAM_ERROR, 0, WT_WEBTRANSPORT_SESSION_GONE));
  CHECK(wt_stream_reset(&c, &r->stream, &r->event) == WT_OK &&
        is_event(&r->event, WT_EVENT_MORE, 0, 0));
  free(r);
  /* an ID that no session has ends the connection */
  r = accept(&c, 12);
  receive(&c, r, bidi_of_0, 5, 0);
  CHECK(wt_stream_join(&c, &r->stream, WT_KNOWN_IMPOSSIBLE, &r->event) == WT_OK);
  CHECK(is_event(&r->event, WT_EVENT_CONNECTION_ERROR, 0, WT_H3_ID_ERROR));
  receive(&c, r, get, sizeof get, 0);
  CHECK(r->event.kind == WT_EVENT_MORE && r->event.consumed == sizeof get);
  free(r);
}

/* 16 streams wait, and the next one is refused until one waits no longer. */
static void early_streams(void) {
  wt_connection c = connection_of(WT_SIDE_SERVER, 1);
  reading *r[18];
  int i;
  for (i = 0; i < 18; i++) {
    r[i] = accept(&c, 4 + 4 * (uint64_t)i);
    receive(&c, r[i], bidi_of_0, 5, 0);
    if (i == 17) {
      CHECK(wt_stream_overflow(&c, &r[0]->stream, &r[0]->event) == WT_OK);
      CHECK(is_event(&r[0]->event, WT_EVENT_STREAM_ERROR, 0,
                     WT_WEBTRANSPORT_BUFFERED_STREAM_REJECTED));
    }
    CHECK(wt_stream_join(&c, &r[i]->stream, WT_KNOWN_COMING, &r[i]->event) == WT_OK);
    if (i == 16)
      CHECK(is_event(&r[i]->event, WT_EVENT_STREAM_ERROR, 0,
                     WT_WEBTRANSPORT_BUFFERED_STREAM_REJECTED));
    else
      CHECK(is_event(&r[i]->event, WT_EVENT_WAITS, WT_WAITS_SESSION, 0));
  }
  for (i = 0; i < 18; i++) free(r[i]);
  r[0] = accept(&c, 80);
  receive(&c, r[0], get, 5, 0);
  CHECK(wt_stream_overflow(&c, &r[0]->stream, &r[0]->event) == WT_OK);
  CHECK(is_event(&r[0]->event, WT_EVENT_CONNECTION_ERROR, 0, WT_H3_EXCESSIVE_LOAD));
  free(r[0]);
}

/* A session from its request to its end, by each call that ends it. */
static void ends(void) {
  int way;
  for (way = 0; way < 3; way++) {
    wt_connection c = connection_of(WT_SIDE_SERVER, 1);
    reading *r;
    configure(&c, 2, chromium_control, sizeof chromium_control);
    CHECK(wt_connection_allows_sessions(&c) == 1);
    r = request_session(&c, 0);
    CHECK(known_of(&c, 0, &r->stream) == WT_KNOWN_COMING);
    CHECK(wt_stream_stop(&c, &r->stream, &r->event) == WT_OK &&
          is_event(&r->event, WT_EVENT_MORE, 0, 0));
    CHECK(wt_stream_answer(&r->stream, 100) == WT_OK &&
          known_of(&c, 0, &r->stream) == WT_KNOWN_COMING);
    CHECK(wt_stream_answer(&r->stream, 200) == WT_OK &&
          known_of(&c, 0, &r->stream) == WT_KNOWN_OPEN);
    /* a datagram of a capsule that is cut is held: it is lost with the session */
    receive(&c, r, (const uint8_t *)"\x00\x09\x00\x05" "abc", 7, 0);
    CHECK(r->event.kind == WT_EVENT_SKIPPED && r->event.held == 3 && !memcmp(r->held, "abc", 3));
    if (way == 0) CHECK(wt_stream_reset(&c, &r->stream, &r->event) == WT_OK);
    if (way == 1) CHECK(wt_stream_stop(&c, &r->stream, &r->event) == WT_OK);
    if (way == 2) CHECK(wt_stream_abandon(&c, &r->stream, &r->event) == WT_OK);
    CHECK(is_event(&r->event, WT_EVENT_SESSION_LOST, 0, 0) && r->event.held == 0);
    CHECK(known_of(&c, 0, &r->stream) == WT_KNOWN_OVER);
    CHECK(wt_stream_reset(&c, &r->stream, &r->event) == WT_OK &&
          is_event(&r->event, WT_EVENT_MORE, 0, 0));
    free(r);
    /* a request that is reset before its HEADERS (RFC 9114, section 4.1.1) */
    r = accept(&c, 4);
    receive(&c, r, get, 3, 0);
    CHECK(wt_stream_reset(&c, &r->stream, &r->event) == WT_OK);
    CHECK(is_event(&r->event, WT_EVENT_RESET, 1, WT_H3_REQUEST_INCOMPLETE));
    free(r);
    /* the control stream */
    r = accept(&c, 6);
    receive(&c, r, (const uint8_t *)"\x00\x04\x00", 3, 0);
    CHECK(r->event.kind == WT_EVENT_CONNECTION_ERROR &&
          r->event.number == WT_H3_STREAM_CREATION_ERROR);
    free(r);
  }
}

static void known(void) {
  wt_connection c = connection_of(WT_SIDE_SERVER, 1);
  reading *r;
  configure(&c, 2, chromium_control, sizeof chromium_control);
  r = accept(&c, 0);
  CHECK(known_of(&c, 0, &r->stream) == WT_KNOWN_COMING);
  read_all(&c, r, get, sizeof get);
  CHECK(known_of(&c, 0, &r->stream) == WT_KNOWN_OTHER);
  receive(&c, r, NULL, 0, 1);
  CHECK(r->event.kind == WT_EVENT_END && known_of(&c, 0, &r->stream) == WT_KNOWN_REFUSED);
  free(r);
  r = accept(&c, 4);
  read_all(&c, r, tunnel, sizeof tunnel);
  CHECK(known_of(&c, 4, &r->stream) == WT_KNOWN_OTHER);
  CHECK(wt_stream_answer(&r->stream, 200) == WT_OK &&
        known_of(&c, 4, &r->stream) == WT_KNOWN_OTHER);
  free(r);
  r = request_session(&c, 8);
  CHECK(wt_stream_answer(&r->stream, 404) == WT_OK &&
        known_of(&c, 8, &r->stream) == WT_KNOWN_REFUSED);
  free(r);
  CHECK(wt_datagram_use(WT_KNOWN_COMING) == WT_DATAGRAM_EARLY &&
        wt_datagram_use(WT_KNOWN_OPEN) == WT_DATAGRAM_DELIVER);
  CHECK(wt_datagram_use(WT_KNOWN_OVER) == WT_DATAGRAM_DROP &&
        wt_datagram_use(WT_KNOWN_REFUSED) == WT_DATAGRAM_DROP);
  CHECK(wt_datagram_use(WT_KNOWN_OTHER) == WT_DATAGRAM_END_STREAM);
  CHECK(wt_datagram_use(WT_KNOWN_IMPOSSIBLE) == WT_DATAGRAM_DROP &&
        wt_datagram_use(6) == WT_INVALID);
}

/* A client opens a session, a stream in it, and reads GOAWAY. */
static void client(void) {
  static const uint8_t control[] = {0x00, 0x04, 0x09, 0xab, 0x60, 0x37, 0x42, 0x01,
                                    0x33, 0x01, 0x08, 0x01, 0x07, 0x01, 0x04};
  wt_connection c = connection_of(WT_SIDE_CLIENT, 1);
  reading *r = (reading *)calloc(1, sizeof *r);
  wt_stream own;
  if (r == NULL) abort();
  CHECK(wt_connection_allows_sessions(&c) == 0 && wt_connection_unprocessed(&c, 4) == 0);
  configure(&c, 3, control, sizeof control);
  CHECK(wt_connection_allows_sessions(&c) == 1);
  CHECK(wt_connection_unprocessed(&c, 0) == 0 && wt_connection_unprocessed(&c, 4) == 1);
  CHECK(wt_stream_of_request(&c, WT_ASKED_SESSION, &r->stream) == WT_OK);
  CHECK(known_of(&c, 0, &r->stream) == WT_KNOWN_COMING);
  receive(&c, r, (const uint8_t *)"\x01\x03\x00\x00\xd9", 5, 0);
  CHECK(r->event.kind == WT_EVENT_SESSION_READY && r->event.number == 200 && r->event.fields == 1);
  CHECK(r->event.used == 10 && !memcmp(r->out, ":status200", 10) && r->fields[0].value_offset == 7);
  CHECK(known_of(&c, 0, &r->stream) == WT_KNOWN_OPEN);
  CHECK(wt_stream_of_session(0, &own) == WT_OK && known_of(&c, 4, &own) == WT_KNOWN_IMPOSSIBLE);
  r->stream = own;
  receive(&c, r, (const uint8_t *)"hi", 2, 1);
  CHECK(r->event.kind == WT_EVENT_STREAM_DATA && r->event.length == 2);
  CHECK(wt_stream_of_request(&c, WT_ASKED_OTHER, &r->stream) == WT_OK);
  CHECK(known_of(&c, 8, &r->stream) == WT_KNOWN_OTHER &&
        known_of(&c, 8, NULL) == WT_KNOWN_IMPOSSIBLE);
  CHECK(wt_stream_of_request(&c, 4, &own) == WT_INVALID);
  free(r);
}

static void datagrams(void) {
  static const uint8_t broken[3][9] = {{0}, {0x40}, {0xd0, 0, 0, 0, 0, 0, 0, 0, 0x61}};
  static const size_t sizes[3] = {0, 1, 9};
  wt_connection c = connection_of(WT_SIDE_SERVER, 1), without = connection_of(WT_SIDE_SERVER, 0);
  wt_event e;
  int i;
  CHECK(wt_datagram_receive(&c,
                            (const uint8_t *)"\x01"
                                             "ab",
                            3, &e) == WT_OK);
  CHECK(e.kind == WT_EVENT_DATAGRAM && e.detail == 1 && e.number == 4 && e.offset == 1 &&
        e.length == 2 && e.consumed == 3);
  CHECK(wt_datagram_receive(&c, (const uint8_t *)"\x40\x40", 2, &e) == WT_OK);
  CHECK(e.kind == WT_EVENT_DATAGRAM && e.number == 256 && e.offset == 2 && e.length == 0);
  CHECK(wt_datagram_receive(&without,
                            (const uint8_t *)"\x01"
                                             "ab",
                            3, &e) == WT_OK &&
        e.kind == WT_EVENT_SKIPPED);
  for (i = 0; i < 3; i++) {
    wt_connection d = connection_of(WT_SIDE_SERVER, 1);
    uint8_t *bytes = exactly(broken[i], sizes[i]);
    CHECK(wt_datagram_receive(&d, bytes, sizes[i], &e) == WT_OK);
    CHECK(e.kind == WT_EVENT_CONNECTION_ERROR && e.number == WT_H3_DATAGRAM_ERROR);
    CHECK(wt_datagram_receive(&d,
                              (const uint8_t *)"\x01"
                                               "ab",
                              3, &e) == WT_OK &&
          e.kind == WT_EVENT_SKIPPED);
    free(bytes);
  }
}

static void stopped(void) {
  static const uint32_t critical[3] = {WT_PURPOSE_CONTROL, WT_PURPOSE_ENCODER, WT_PURPOSE_DECODER};
  int i;
  for (i = 0; i < 3; i++) {
    wt_connection c = connection_of(WT_SIDE_SERVER, 1);
    uint64_t code = UNCHANGED;
    CHECK(wt_stopped(&c, WT_PURPOSE_SESSION, &code) == WT_OK && code == UNCHANGED);
    CHECK(wt_stopped(&c, WT_PURPOSE_MESSAGE, &code) == WT_INVALID && code == UNCHANGED);
    CHECK(wt_stopped(&c, critical[i], &code) == WT_ERROR && code == WT_H3_CLOSED_CRITICAL_STREAM);
    CHECK(wt_stopped(&c, critical[i], &code) == WT_OK);
  }
}

/* A datagram of a capsule longer than the limit is dropped, whole and cut, and no bytes of it are
   held. */
static void long_datagrams(void) {
  static uint8_t bytes[8 + 1201 + 3] = {0x00, 0x44, 0xb7, 0x00, 0x44, 0xb1};
  size_t steps[3] = {sizeof bytes, 700, 1}, i;
  memcpy(bytes + 6 + 1201,
         "\x00\x01"
         "a",
         3);
  for (i = 0; i < 3; i++) {
    wt_connection c = connection_of(WT_SIDE_SERVER, 1);
    reading *r;
    size_t start = 0, end = 0, turn, came = 0, size = 6 + 1201 + 3;
    configure(&c, 2, chromium_control, sizeof chromium_control);
    r = request_session(&c, 0);
    CHECK(wt_stream_answer(&r->stream, 200) == WT_OK);
    for (turn = 0; turn < 3000 && (end < size || r->event.kind != WT_EVENT_MORE); turn++) {
      if (r->event.kind == WT_EVENT_MORE || end == 0)
        end = size - end < steps[i] ? size : end + steps[i];
      receive(&c, r, bytes + start, end - start, 0);
      start += r->event.consumed;
      CHECK(r->event.held <= 4);
      if (r->event.kind == WT_EVENT_DATAGRAM) came += r->event.used == 1 && r->out[0] == 'a';
    }
    CHECK(came == 1 && start == size);
    free(r);
  }
}

void test_connection_calls(void) {
  joins();
  early_streams();
  ends();
  known();
  client();
  datagrams();
  stopped();
  long_datagrams();
}
