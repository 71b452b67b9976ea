/* Streams whose bytes come once, in chunks of each size: their events are those of the same bytes
   whole (RFC 9114, sections 4.1, 6.2 and 7.2.4; draft-ietf-webtrans-http3-02, section 4). */
#include "connection.h"

/* What came of a stream: each event but those without a meaning, with its bytes. Pieces of content
   that follow one another are one. */
typedef struct record {
  uint8_t bytes[4096];
  size_t size;
  uint32_t last;
  uint64_t consumed;
} record;

static void put(record *r, const void *bytes, size_t size) {
  if (r->size + size > sizeof r->bytes) abort();
  if (size > 0) memcpy(r->bytes + r->size, bytes, size);
  r->size += size;
}

static void note(record *r, const wt_event *e, const uint8_t *bytes, const uint8_t *out) {
  r->consumed += e->consumed;
  if (e->kind <= WT_EVENT_WAITS || e->kind == WT_EVENT_SKIPPED) return;
  if (e->kind != r->last || (e->kind != WT_EVENT_DATA && e->kind != WT_EVENT_STREAM_DATA)) {
    put(r, &e->kind, sizeof e->kind);
    put(r, &e->detail, sizeof e->detail);
    put(r, &e->number, sizeof e->number);
  }
  r->last = e->kind;
  put(r, bytes + e->offset, e->length);
  put(r, out, e->used);
}

/* A stream that is pushed, and its array, of exactly this size. */
typedef struct pushed {
  reading r;
  wt_hold hold;
  uint8_t *room;
  size_t size;
} pushed;

static pushed *pushed_of(size_t size) {
  pushed *p = (pushed *)calloc(1, sizeof *p);
  if (p == NULL) abort();
  p->room = (uint8_t *)calloc(1, size > 0 ? size : 1);
  if (p->room == NULL) abort();
  p->size = size;
  return p;
}

static void release(pushed *p) {
  free(p->room);
  free(p);
}

/* One call with a chunk in memory of exactly its size. Returns how many of its bytes are left. */
static size_t push_once(wt_connection *c, pushed *p, const uint8_t *chunk, size_t size, int fin,
                        record *to) {
  uint8_t *copy = exactly(chunk, size);
  wt_event *e = &p->r.event;
  size_t before = p->hold.end - p->hold.start;
  memset(e, 0xff, sizeof *e);
  CHECK(wt_receive_pushed(c, &p->r.stream, p->r.held, sizeof p->r.held, NULL, 0, &p->hold, p->room,
                          p->size, copy, size, (uint8_t)fin, e, p->r.fields, 64, p->r.out,
                          sizeof p->r.out) == WT_OK);
  CHECK(p->hold.taken <= size && p->hold.start <= p->hold.end && p->hold.end <= p->size);
  CHECK(p->hold.end - p->hold.start + size - p->hold.taken + e->consumed == before + size);
  if (e->kind > WT_EVENT_WAITS)
    CHECK(p->hold.end - p->hold.start <= before);
  else
    CHECK(p->hold.taken == size || p->hold.end - p->hold.start + size - p->hold.taken > p->size);
  note(to, e, p->hold.in_array ? p->room : copy, p->r.out);
  free(copy);
  return size - p->hold.taken;
}

/* Passes a chunk until it is all taken. Returns how many bytes are left, for which there is no room. */
static size_t push(wt_connection *c, pushed *p, const uint8_t *chunk, size_t size, int fin,
                   record *to) {
  size_t left = size, turn;
  for (turn = 0; turn < 2 * size + 9; turn++) {
    left = push_once(c, p, left > 0 ? chunk + (size - left) : chunk, left, fin, to);
    if (p->r.event.kind <= WT_EVENT_WAITS) return left;
  }
  CHECK(!"a loop ends");
  return left;
}

/* The same bytes at once, by wt_receive. */
static void read_whole(wt_connection *c, reading *r, const uint8_t *bytes, size_t size, int fin,
                       record *to) {
  size_t start = 0, turn;
  for (turn = 0; turn < 2 * size + 9; turn++) {
    receive(c, r, bytes + start, size - start, fin);
    note(to, &r->event, bytes + start, r->out);
    start += r->event.consumed;
    if (r->event.kind <= WT_EVENT_WAITS) break;
  }
  CHECK(turn < 2 * size + 9);
}

/* A session's own stream after its answer: DRAIN, a datagram of 2 bytes over two DATA frames with an
   unknown frame between, an unknown capsule, and CLOSE with the code 7 and the reason "bye" (RFC 9297,
   section 3.2; draft-ietf-webtrans-http3-07, section 5). */
static const uint8_t session_bytes[] = {0x00, 0x03, 0x80, 0x00, 0x78, 0x00, 0x01, 0xae, 0x00, 0x03,
                                        0x00, 0x00, 0x02, 0x21, 0x02, 0x78, 0x78, 0x00, 0x05, 'h',
                                        'i',  0x17, 0x01, 'x',  0x00, 0x0a, 0x68, 0x43, 0x07, 0x00,
                                        0x00, 0x00, 0x07, 'b',  'y',  'e'};

/* POST with a body in two DATA frames, between which is one of an unknown type, and trailers. */
static const uint8_t post[] = {0x01, 0x08, 0x00, 0x00, 0xd4, 0xd7, 0xc1, 0x50, 0x01, 'a',
                               0x00, 0x05, 'h',  'e',  'l',  'l',  'o',  0x21, 0x03, 'x',
                               'y',  'z',  0x00, 0x01, '!',  0x01, 0x06, 0x00, 0x00, 0x21,
                               'x',  0x01, 'y'};

/* A bidirectional stream of session 0. */
static const uint8_t of_session[] = {0x40, 0x41, 0x00, 'a', 'b', 'c', 'd', 'e', 'f', 'g'};

/* A stream of an unknown type (RFC 9114, section 6.2.3). */
static const uint8_t unknown[] = {0x21, 'a', 'b', 'c', 'd'};

enum { CONTROL, POST, SESSION, MEMBER, UNKNOWN, WAYS };

static const uint8_t *bytes_of(int way, size_t *size) {
  static const uint8_t *const bytes[WAYS] = {chromium_control, post, session_bytes, of_session,
                                             unknown};
  static const size_t sizes[WAYS] = {sizeof chromium_control, sizeof post, sizeof session_bytes,
                                     sizeof of_session, sizeof unknown};
  *size = sizes[way];
  return bytes[way];
}

/* Begins the stream of a way. */
static void begin(wt_connection *c, int way, wt_stream *stream) {
  static const uint64_t ids[WAYS] = {2, 0, 0, 4, 2};
  if (way == SESSION) {
    reading *r;
    configure(c, 2, chromium_control, sizeof chromium_control);
    r = request_session(c, 0);
    CHECK(wt_stream_answer(&r->stream, 200) == WT_OK);
    *stream = r->stream;
    free(r);
  } else {
    CHECK(wt_stream_accept(c, ids[way], stream) == WT_OK);
  }
}

/* A member of a session joins it as soon as it may. */
static int joins(wt_connection *c, const wt_event *e, wt_stream *stream) {
  wt_event joined;
  if (e->kind != WT_EVENT_JOINS) return 0;
  CHECK(wt_stream_join(c, stream, WT_KNOWN_OPEN, &joined) == WT_OK &&
        joined.kind == WT_EVENT_JOINED);
  return 1;
}

static record whole_of(int way) {
  record all;
  reading *r = (reading *)calloc(1, sizeof *r);
  wt_connection c = connection_of(WT_SIDE_SERVER, 1);
  size_t size, start = 0, turn;
  const uint8_t *bytes = bytes_of(way, &size);
  memset(&all, 0, sizeof all);
  if (r == NULL) abort();
  begin(&c, way, &r->stream);
  if (way == MEMBER) {
    for (turn = 0; turn < 9; turn++) {
      receive(&c, r, bytes + start, size - start, 1);
      note(&all, &r->event, bytes + start, r->out);
      start += r->event.consumed;
      joins(&c, &r->event, &r->stream);
    }
  } else {
    read_whole(&c, r, bytes, size, way != CONTROL, &all);
  }
  free(r);
  return all;
}

/* What the record has to be of each way, by its first event and the last one. */
static void is_meant(int way, const record *all) {
  static const uint32_t first[WAYS] = {WT_EVENT_OPENED, WT_EVENT_OPENED, WT_EVENT_DRAINING,
                                       WT_EVENT_JOINS, WT_EVENT_OPENED};
  static const uint32_t last[WAYS] = {WT_EVENT_SETTINGS, WT_EVENT_END, WT_EVENT_END, WT_EVENT_END,
                                      WT_EVENT_END};
  uint32_t kind;
  memcpy(&kind, all->bytes, sizeof kind);
  CHECK(kind == first[way]);
  CHECK(all->last == last[way]);
}

static void chunks(void) {
  int way;
  for (way = 0; way < WAYS; way++) {
    record all = whole_of(way);
    size_t size, step, room;
    const uint8_t *bytes = bytes_of(way, &size);
    is_meant(way, &all);
    for (step = 1; step <= size; step++) {
      for (room = 80; room <= 4112; room += 4032) {
        record some;
        pushed *p = pushed_of(room);
        wt_connection c = connection_of(WT_SIDE_SERVER, 1);
        size_t at = 0;
        memset(&some, 0, sizeof some);
        begin(&c, way, &p->r.stream);
        while (at < size) {
          size_t part = size - at < step ? size - at : step, left = part, turn;
          int fin = way != CONTROL && at + part == size;
          for (turn = 0; turn < 2 * size + 9; turn++) {
            left = push_once(&c, p, bytes + at + (part - left), left, fin, &some);
            joins(&c, &p->r.event, &p->r.stream);
            if (p->r.event.kind <= WT_EVENT_WAITS) break;
          }
          CHECK(left == 0);
          at += part;
        }
        CHECK(some.size == all.size && !memcmp(some.bytes, all.bytes, all.size));
        CHECK(some.consumed == all.consumed);
        release(p);
      }
    }
  }
}

/* A stream waits for its session: its bytes and its end are held (section 4.5 of the draft). */
static void waits(void) {
  static const uint8_t data[] = {WT_EVENT_STREAM_DATA, 0, 0, 0};
  wt_connection c = connection_of(WT_SIDE_SERVER, 1);
  pushed *p = pushed_of(8);
  record some;
  memset(&some, 0, sizeof some);
  CHECK(wt_stream_accept(&c, 4, &p->r.stream) == WT_OK);
  CHECK(push_once(&c, p, of_session, 5, 0, &some) == 2 && p->r.event.kind == WT_EVENT_JOINS);
  CHECK(wt_stream_join(&c, &p->r.stream, WT_KNOWN_COMING, &p->r.event) == WT_OK);
  CHECK(push(&c, p, of_session + 3, 2, 0, &some) == 0 && p->r.event.kind == WT_EVENT_WAITS);
  CHECK(p->hold.end - p->hold.start == 2 && !p->hold.fin);
  CHECK(push(&c, p, of_session + 5, 5, 1, &some) == 0 && p->r.event.kind == WT_EVENT_WAITS);
  CHECK(p->hold.end - p->hold.start == 7 && p->hold.fin);
  CHECK(wt_stream_join(&c, &p->r.stream, WT_KNOWN_OPEN, &p->r.event) == WT_OK);
  some.size = 0;
  CHECK(push(&c, p, NULL, 0, 0, &some) == 0);
  CHECK(some.size == 16 + 7 + 16 && !memcmp(some.bytes, data, 4) &&
        !memcmp(some.bytes + 16, "abcdefg", 7) && some.last == WT_EVENT_END);
  release(p);
}

/* More bytes wait than there is room for: the rest of the chunk is not taken, and nothing is lost
   with a longer array; or the stream is over. */
static void overflows(void) {
  int way;
  for (way = 0; way < 2; way++) {
    wt_connection c = connection_of(WT_SIDE_SERVER, 1);
    pushed *p = pushed_of(4);
    record some;
    memset(&some, 0, sizeof some);
    CHECK(wt_stream_accept(&c, 4, &p->r.stream) == WT_OK);
    CHECK(push_once(&c, p, of_session, 3, 0, &some) == 0);
    CHECK(wt_stream_join(&c, &p->r.stream, WT_KNOWN_COMING, &p->r.event) == WT_OK);
    CHECK(push(&c, p, of_session + 3, 3, 0, &some) == 0);
    CHECK(push(&c, p, of_session + 6, 4, 1, &some) == 4 && p->r.event.kind == WT_EVENT_WAITS);
    CHECK(p->hold.end - p->hold.start == 3 && !memcmp(p->room + p->hold.start, "abc", 3));
    if (way == 0) {
      CHECK(wt_stream_overflow(&c, &p->r.stream, &p->r.event) == WT_OK);
      CHECK(p->r.event.kind == WT_EVENT_STREAM_ERROR &&
            p->r.event.number == WT_WEBTRANSPORT_BUFFERED_STREAM_REJECTED);
    } else {
      p->room = (uint8_t *)realloc(p->room, 7);
      if (p->room == NULL) abort();
      p->size = 7;
      CHECK(push(&c, p, of_session + 6, 4, 1, &some) == 0);
      CHECK(wt_stream_join(&c, &p->r.stream, WT_KNOWN_OPEN, &p->r.event) == WT_OK);
      some.size = 0;
      CHECK(push(&c, p, NULL, 0, 0, &some) == 0);
      CHECK(some.size == 16 + 7 + 16 && !memcmp(some.bytes + 16, "abcdefg", 7));
    }
    release(p);
  }
}

/* Arguments that are refused, and arrays that are too short: the same bytes are held. */
static void refused(void) {
  wt_connection c = connection_of(WT_SIDE_SERVER, 1), other;
  pushed *p = pushed_of(16);
  wt_hold good, bad;
  wt_event e;
  uint8_t table = 0;
  int i;
  memset(&other, 0xff, sizeof other);
  CHECK(wt_stream_accept(&c, 0, &p->r.stream) == WT_OK);
  memset(&e, 0xff, sizeof e);
  for (i = 0; i < 7; i++) {
    memset(&bad, 0, sizeof bad);
    if (i == 0) bad.start = 1;
    if (i == 1) bad.end = 17;
    if (i == 2) bad.fin = 2;
    if (i == 3) bad.reserved[0] = 1;
    if (i == 4) bad.reserved[5] = 1;
    if (i == 5) bad.in_array = 2;
    if (i == 6) bad.in_array = 255;
    good = bad;
    bad.taken = 3;
    CHECK(wt_receive_pushed(&c, &p->r.stream, NULL, 0, NULL, 0, &bad, p->room, 16, post, 3, 0, &e,
                            NULL, 0, NULL, 0) == WT_INVALID);
    CHECK(!memcmp(&good, &bad, sizeof bad) && e.kind == UINT32_MAX);
  }
  CHECK(wt_receive_pushed(&c, &p->r.stream, NULL, 0, NULL, 0, &p->hold, NULL, 0, post, 0, 0, &e,
                          NULL, 0, NULL, 0) == WT_OK);
  CHECK(e.kind == WT_EVENT_MORE && p->hold.taken == 0 && !p->hold.in_array);
  CHECK(wt_receive_pushed(&c, &p->r.stream, NULL, 0, NULL, 0, &p->hold, p->room, 16, post, 3, 0, &e,
                          NULL, 0, NULL, 0) == WT_OK);
  CHECK(e.kind == WT_EVENT_OPENED && p->hold.taken == 0);
  CHECK(wt_receive_pushed(&c, &p->r.stream, NULL, 0, NULL, 0, &p->hold, p->room, 16, post, 3, 0, &e,
                          NULL, 0, NULL, 0) == WT_OK);
  CHECK(e.kind == WT_EVENT_MORE && p->hold.taken == 3 && p->hold.end == 3);
  memset(&e, 0xff, sizeof e);
  /* none of the chunk is taken then, and its end is not kept */
  p->hold.taken = 7;
  CHECK(wt_receive_pushed(&other, &p->r.stream, NULL, 0, NULL, 0, &p->hold, p->room, 16, post + 3, 7,
                          1, &e, NULL, 0, NULL, 0) == WT_INVALID);
  CHECK(p->hold.taken == 0 && !p->hold.fin);
  p->hold.taken = 7;
  CHECK(wt_receive_pushed(&c, &p->r.stream, NULL, 0, &table, 1, &p->hold, p->room, 16, post + 3, 7, 1,
                          &e, NULL, 0, NULL, 0) == WT_INVALID);
  CHECK(p->hold.taken == 0 && !p->hold.fin);
  CHECK(e.kind == UINT32_MAX && p->hold.end - p->hold.start == 3);
  p->hold.taken = 7;
  CHECK(wt_receive_pushed(&c, &p->r.stream, NULL, 0, NULL, 0, &p->hold, p->room, 16, post + 3, 7, 1,
                          &e, p->r.fields, 3, p->r.out, 99) == WT_BUFFER_TOO_SMALL);
  CHECK(p->hold.taken == 0 && !p->hold.fin);
  CHECK(e.kind == WT_EVENT_HEADERS && e.fields == 4 && p->hold.end - p->hold.start == 3 &&
        !memcmp(p->room + p->hold.start, post, 3));
  CHECK(wt_receive_pushed(&c, &p->r.stream, NULL, 0, NULL, 0, &p->hold, p->room, 16, post + 3, 7, 0,
                          &e, p->r.fields, 4, p->r.out, e.used) == WT_OK);
  CHECK(e.kind == WT_EVENT_HEADERS && e.fields == 4 && p->hold.taken == 7 &&
        p->hold.start == p->hold.end && p->hold.in_array);
  CHECK(e.used >= 11 && !memcmp(p->r.out, ":methodPOST", 11));
  release(p);
}

void test_connection_pushes(void) {
  chunks();
  waits();
  overflows();
  refused();
}
