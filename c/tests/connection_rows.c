/* Streams of messages and sessions, in pieces of every size: the rows of the crate
   tests_webtransport (draft-ietf-webtrans-http3-02, sections 3 and 5; RFC 9297, section 3.3; RFC
   9114, section 4). */
#include "connection.h"

/* What comes on a stream: a request; the response to a request that asked for a session; or, at a
   server with WebTransport that answers with a status, what follows a request for a session, after
   SETTINGS or before them. */
enum { REQUEST, RESPONSE, SESSION, EARLY };

typedef struct row {
  int what;
  uint32_t status;
  size_t size;
  const char *bytes;
  const char *events;
} row;

#define ROW(what, status, bytes, events)                                                           \
  { what, status, sizeof bytes - 1, bytes, events }

static const row rows[] = {
    /* the stream ends; CLOSE with the code 1 and a reason, whole and in two DATA frames */
    ROW(SESSION, 200, "", "requested 5; closed 0 ; end; "),
    ROW(SESSION, 200, "\x00\x09\x68\x43\x06\x00\x00\x00\x01\x61\x62",
        "requested 5; closed 1 ab; end; "),
    ROW(SESSION, 299, "\x00\x04\x68\x43\x06\x00\x00\x05\x00\x00\x01\x61\x62",
        "requested 5; closed 1 ab; end; "),
    /* a byte, a reserved frame and HEADERS after CLOSE */
    ROW(SESSION, 200, "\x00\x0a\x68\x43\x06\x00\x00\x00\x01\x61\x62\x00",
        "requested 5; closed 1 ab; stream error 270; "),
    ROW(SESSION, 200, "\x00\x09\x68\x43\x06\x00\x00\x00\x01\x61\x62\x21\x00",
        "requested 5; closed 1 ab; stream error 270; "),
    ROW(SESSION, 200, "\x00\x07\x68\x43\x04\x00\x00\x00\x01\x01\x06\x00\x00\x21\x78\x01\x79",
        "requested 5; closed 1 ; stream error 270; "),
    /* CLOSE of three bytes, with a reason that is not UTF-8, of 1029 bytes, and cut */
    ROW(SESSION, 200, "\x00\x06\x68\x43\x03\x00\x00\x00", "requested 5; stream error 270; lost; "),
    ROW(SESSION, 200, "\x00\x08\x68\x43\x05\x00\x00\x00\x01\xff",
        "requested 5; stream error 270; lost; "),
    ROW(SESSION, 200, "\x00\x04\x68\x43\x44\x05", "requested 5; stream error 270; lost; "),
    ROW(SESSION, 200, "\x00\x04\x68\x43\x06\x00", "requested 5; stream error 270; lost; "),
    /* a reserved capsule */
    ROW(SESSION, 200, "\x00\x04\x17\x02\x01\x02", "requested 5; closed 0 ; end; "),
    /* datagrams: one, over three DATA frames, before other capsules, and cut by the end */
    ROW(SESSION, 200, "\x00\x04\x00\x02\x61\x62", "requested 5; datagram ab; closed 0 ; end; "),
    ROW(SESSION, 200, "\x00\x04\x00\x01\x61\x00\x00\x02\x00\x40\x00\x03\x00\x01\x62",
        "requested 5; datagram a; datagram ; datagram b; closed 0 ; end; "),
    ROW(SESSION, 200, "\x00\x0f\x00\x01\x61\x17\x01\xff\x68\x43\x06\x00\x00\x00\x01\x61\x62",
        "requested 5; datagram a; closed 1 ab; end; "),
    ROW(SESSION, 200, "\x00\x03\x00\x02\x61", "requested 5; stream error 270; lost; "),
    /* DRAIN, and with a value */
    ROW(SESSION, 200, "\x00\x08\x80\x00\x78\xae\x00\x00\x01\x61",
        "requested 5; draining; datagram a; closed 0 ; end; "),
    ROW(SESSION, 200, "\x00\x06\x80\x00\x78\xae\x01\x61", "requested 5; stream error 270; lost; "),
    /* a DATA frame that is cut; HEADERS in an open session; a session that is refused */
    ROW(SESSION, 200, "\x00\x05\x00\x01\x61", "requested 5; datagram a; connection error 262; "),
    ROW(SESSION, 200, "\x01\x06\x00\x00\x21\x78\x01\x79", "requested 5; connection error 261; "),
    ROW(SESSION, 404, "\x00\x01\x61", "requested 5; data 1; end; "),
    /* a request before SETTINGS */
    ROW(EARLY, 200, "\x00\x09\x68\x43\x06\x00\x00\x00\x01\x61\x62",
        "waits 2; requested 5; closed 1 ab; end; "),
    /* responses: accepted, refused, after an interim one, with trailers, malformed by two rules,
       and none */
    ROW(RESPONSE, 0, "\x01\x03\x00\x00\xd9\x00\x09\x68\x43\x06\x00\x00\x00\x01\x61\x62",
        "ready 200 1; closed 1 ab; end; "),
    ROW(RESPONSE, 0, "\x01\x03\x00\x00\xdb\x00\x01\x61", "rejected 404 1; data 1; end; "),
    ROW(RESPONSE, 0, "\x01\x03\x00\x00\xd8\x01\x03\x00\x00\xd9",
        "headers 1 103 1; ready 200 1; closed 0 ; end; "),
    ROW(RESPONSE, 0, "\x01\x03\x00\x00\xdb\x00\x01\x61\x01\x06\x00\x00\x21\x78\x01\x79",
        "rejected 404 1; data 1; headers 3 0 1; end; "),
    ROW(RESPONSE, 0, "\x01\x04\x00\x00\xff\x01", "malformed 23 270; "),
    ROW(RESPONSE, 0, "\x01\x04\x00\x00\xd9\xf4", "malformed 20 270; "),
    ROW(RESPONSE, 0, "", "stream error 270; "),
    /* a request without :path (RFC 9114, section 4.3.1), and one whose section cannot be decoded */
    ROW(REQUEST, 0, "\x01\x07\x00\x00\xd1\xd7\x50\x01\x61", "malformed 13 270; "),
    ROW(REQUEST, 0, "\x01\x03\x02\x00\xd1", "connection error 512; "),
    ROW(REQUEST, 0, "\x01\x08\x00\x00\xd1\xd7\xc1\x50\x01\x61\x00\x02\x68\x69",
        "headers 0 0 4; data 2; end; "),
};

/* The events of a stream as text. Pieces of content that follow each other are one. */
typedef struct text {
  char events[400];
  size_t data;
} text;

static void add(text *t, const char *word, const reading *r, int numbers, const char *reason) {
  char *end = t->events + strlen(t->events);
  size_t room = sizeof t->events - strlen(t->events);
  if (numbers == 0) snprintf(end, room, "%s; ", word);
  if (numbers == 1) snprintf(end, room, "%s %zu; ", word, r->event.fields);
  if (numbers == 2)
    snprintf(end, room, "%s %u %zu; ", word, (unsigned)r->event.number, r->event.fields);
  if (numbers == 3)
    snprintf(end, room, "%s %u %u %zu; ", word, r->event.detail, (unsigned)r->event.number,
             r->event.fields);
  if (numbers == 4) snprintf(end, room, "%s %u; ", word, (unsigned)r->event.number);
  if (numbers == 5) snprintf(end, room, "%s %u %s; ", word, (unsigned)r->event.number, reason);
  if (numbers == 6) snprintf(end, room, "%s %s; ", word, reason);
  if (numbers == 7) snprintf(end, room, "%s %u; ", word, r->event.detail);
  if (numbers == 8)
    snprintf(end, room, "%s %u %u; ", word, r->event.detail, (unsigned)r->event.number);
}

static void flush(text *t) {
  if (t->data > 0) {
    char *end = t->events + strlen(t->events);
    snprintf(end, sizeof t->events - strlen(t->events), "data %zu; ", t->data);
  }
  t->data = 0;
}

/* Appends the event of a call. */
static void tell(text *t, const reading *r) {
  char reason[64] = "";
  if (r->event.kind == WT_EVENT_DATA || r->event.kind == WT_EVENT_STREAM_DATA) {
    t->data += r->event.length;
    return;
  }
  if (r->event.kind == WT_EVENT_MORE || r->event.kind == WT_EVENT_SKIPPED) return;
  flush(t);
  CHECK(r->event.used < sizeof reason || r->event.fields > 0);
  if (r->event.fields == 0) memcpy(reason, r->out, r->event.used);
  switch (r->event.kind) {
    case WT_EVENT_OPENED: break;
    case WT_EVENT_SESSION_REQUESTED: add(t, "requested", r, 1, ""); break;
    case WT_EVENT_SESSION_READY: add(t, "ready", r, 2, ""); break;
    case WT_EVENT_REJECTED: add(t, "rejected", r, 2, ""); break;
    case WT_EVENT_HEADERS: add(t, "headers", r, 3, ""); break;
    case WT_EVENT_STREAM_ERROR: add(t, "stream error", r, 4, ""); break;
    case WT_EVENT_CONNECTION_ERROR: add(t, "connection error", r, 4, ""); break;
    case WT_EVENT_SESSION_CLOSED: add(t, "closed", r, 5, reason); break;
    case WT_EVENT_DATAGRAM: add(t, "datagram", r, 6, reason); break;
    case WT_EVENT_SESSION_LOST: add(t, "lost", r, 0, ""); break;
    case WT_EVENT_DRAINING: add(t, "draining", r, 0, ""); break;
    case WT_EVENT_END: add(t, "end", r, 0, ""); break;
    case WT_EVENT_WAITS: add(t, "waits", r, 7, ""); break;
    case WT_EVENT_MALFORMED: add(t, "malformed", r, 8, ""); break;
    default: add(t, "other", r, 0, ""); break;
  }
}

/* Answers a stream that waits, or reads the SETTINGS for which it waits. */
static void end_wait(const row *row, wt_connection *c, reading *r, text *t) {
  if (r->event.detail == WT_WAITS_ANSWER) {
    CHECK(wt_stream_answer(&r->stream, row->status) == WT_OK);
  } else {
    tell(t, r);
    configure(c, 2, chromium_control, sizeof chromium_control);
  }
}

/* Plays a row, of which `step` bytes come at a time. */
static void play(const row *row, const uint8_t *bytes, size_t size, size_t step) {
  wt_connection c =
      connection_of(row->what == RESPONSE ? WT_SIDE_CLIENT : WT_SIDE_SERVER, row->what != REQUEST);
  reading *r = (reading *)calloc(1, sizeof *r);
  text t = {"", 0};
  size_t start = 0, end = step < size ? step : size, turn;
  if (r == NULL) abort();
  if (row->what == SESSION) configure(&c, 2, chromium_control, sizeof chromium_control);
  if (row->what == RESPONSE)
    CHECK(wt_stream_of_request(&c, WT_ASKED_SESSION, &r->stream) == WT_OK);
  else
    CHECK(wt_stream_accept(&c, 0, &r->stream) == WT_OK);
  for (turn = 0; turn < 1000; turn++) {
    receive(&c, r, bytes + start, end - start, end == size);
    start += r->event.consumed;
    if (r->event.kind == WT_EVENT_WAITS) {
      end_wait(row, &c, r, &t);
      continue;
    }
    tell(&t, r);
    if (r->event.kind != WT_EVENT_MORE) continue;
    if (end == size) break;
    end = size - end < step ? size : end + step;
  }
  flush(&t);
  CHECK(start == size);
  if (strcmp(t.events, row->events)) printf("%s\nand not %s\n", t.events, row->events);
  CHECK(!strcmp(t.events, row->events));
  free(r);
}

void test_connection_rows(void) {
  size_t i, step;
  for (i = 0; i < sizeof rows / sizeof *rows; i++) {
    const row *row = &rows[i];
    uint8_t bytes[200];
    size_t size = 0;
    if (row->what == SESSION || row->what == EARLY) {
      memcpy(bytes, session_request, sizeof session_request);
      size = sizeof session_request;
    }
    memcpy(bytes + size, row->bytes, row->size);
    size += row->size;
    for (step = 1; step <= size + 1; step++) play(row, bytes, size, step);
  }
}
