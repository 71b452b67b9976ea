/* A server for sessions at /chat: what comes on a bidirectional stream of a session goes back on
   it. In place of QUIC it reads standard input, where each piece of a stream has four bytes before
   it: the stream's ID, 1 if the stream ends after it and otherwise 0, and its size, the higher byte
   first. It prints what QUIC would have to do.
     cat pieces | server */
#include "fields.h"
#include <stdio.h>
#include <stdlib.h>

/* The limits. Each field counts 32 bytes of MAX_FIELDS beside its texts, so these are its fields and
   their texts at most. A window has room for a field section with its frame. */
enum { MAX_SECTION = 1 << 14, MAX_FIELDS = 1 << 14, HELD = 1200, WINDOW = 1 << 16 };
enum { FIELDS = MAX_FIELDS / 32, OUT = MAX_FIELDS };

typedef struct stream {
  uint64_t id;
  wt_stream state;
  wt_sending sending; /* of the response */
  uint8_t held[HELD];    /* of a capsule that is cut */
  uint8_t bytes[WINDOW]; /* that were not consumed */
  size_t length;
  uint8_t fin; /* the stream ends after them */
} stream;

static stream *streams[256];
static size_t count;
static wt_connection connection;
static wt_field fields[FIELDS];
static uint8_t out[OUT];
static int closed;

/* ---- What QUIC does ---- */

/* Sends bytes on the own half of a stream, and ends it if fin is set. A half that ended, or that a
   unidirectional stream of the peer does not have, sends nothing. */
static void quic_send(uint64_t id, const uint8_t *bytes, size_t length, int fin) {
  static uint8_t ended[256];
  size_t i;
  if (id % 4 == 2 || ended[id % 256]) return;
  ended[id % 256] = (uint8_t)fin;
  printf("%u:", (unsigned)id);
  for (i = 0; i < length; i++) printf(" %02x", bytes[i]);
  puts(fin ? " end" : "");
}

/* Asks the peer to stop its half of a stream. */
static void quic_stop(uint64_t id, uint64_t code) {
  printf("%u: stop 0x%lx\n", (unsigned)id, (unsigned long)code);
}

/* Resets the own half of a stream, and asks the peer to stop its half. */
static void quic_end(uint64_t id, uint64_t code) {
  printf("%u: reset and stop 0x%lx\n", (unsigned)id, (unsigned long)code);
}

/* Closes the connection; a second time does nothing. */
static void quic_close(uint64_t code) {
  if (!closed) printf("close 0x%lx\n", (unsigned long)code);
  closed = 1;
}

/* ---- The streams of the connection ---- */

static stream *find(uint64_t id) {
  size_t i;
  for (i = 0; i < count; i++)
    if (streams[i]->id == id) return streams[i];
  return NULL;
}

/* Whether a call succeeded: the connection is closed if it did not. */
static int ok(int answer) {
  if (answer != WT_OK) quic_close(WT_H3_INTERNAL_ERROR);
  return answer == WT_OK;
}

/* Ends the streams of a session that is over, and then its own. */
static void end_streams(uint64_t session) {
  size_t i;
  for (i = 0; i < count; i++) {
    stream *s = streams[i];
    uint32_t belongs = 0;
    uint64_t its = 0;
    wt_event e;
    if (!ok(wt_stream_belongs(&s->state, &belongs, &its)) || !belongs || its != session) continue;
    quic_end(s->id, WT_WEBTRANSPORT_SESSION_GONE);
    ok(wt_stream_abandon(&connection, &s->state, &e));
  }
  quic_send(session, NULL, 0, 1);
}

/* Whether the path of a request is /chat, before its query. */
static int is_chat(const wt_event *e) {
  size_t length, size = 0;
  const uint8_t *path = field_value(fields, e->fields, out, ":path", &length);
  while (path != NULL && size < length && path[size] != '?') size++;
  return size == 5 && memcmp(path, "/chat", size) == 0;
}

static int is_connect(const wt_event *e) {
  size_t length;
  const uint8_t *method = field_value(fields, e->fields, out, ":method", &length);
  return method != NULL && length == 7 && memcmp(method, "CONNECT", 7) == 0;
}

/* ---- The server ---- */

static void begin(void) {
  static const wt_endpoint endpoint = {WT_SIDE_SERVER, 1, 1, 1, MAX_SECTION, MAX_FIELDS, HELD, {0}};
  static const wt_setting settings[] = {
      {WT_SETTING_MAX_FIELD_SECTION_SIZE, MAX_FIELDS}, {WT_SETTING_ENABLE_CONNECT_PROTOCOL, 1},
      {WT_SETTING_H3_DATAGRAM, 1}, {WT_SETTING_ENABLE_WEBTRANSPORT, 1}};
  wt_control control; uint8_t bytes[32]; size_t size; uint32_t why;
  if (ok(wt_connection_new(WT_ABI, &endpoint, &connection)) &&
      ok(wt_control_new(&connection, &control)) &&
      ok(wt_control_settings(&control, settings, 4, bytes, sizeof bytes, &size, &why)))
    quic_send(3, bytes, size, 0);
}
static int join(stream *s, uint64_t session, wt_event *e) {
  const stream *its = find(session); uint32_t known;
  return ok(wt_session_known(&connection, session, its ? &its->state : NULL, its != NULL, &known))
         && ok(wt_stream_join(&connection, &s->state, known, e));
}
static void answer(stream *s, uint32_t asked, const char *status) {
  field_list f = {0}; uint8_t bytes[16]; size_t size; uint32_t why; int end = *status != '2';
  field_add(&f, ":status", status);
  if (!ok(wt_sending_response(&connection, s->id, asked, &s->sending, &why)) ||
      !ok(wt_sending_headers(&s->sending, f.list, f.count, f.texts, f.used, bytes, sizeof bytes,
                             &size, &why)) || (end && !ok(wt_sending_finish(&s->sending, &why))))
    return;
  quic_send(s->id, bytes, size, end);
  ok(wt_stream_answer(&s->state, (uint32_t)atoi(status)));
}
static void refuse_fields(stream *s) {
  wt_event e;
  answer(s, WT_ASKED_OTHER, "431");
  quic_stop(s->id, WT_H3_NO_ERROR);
  ok(wt_stream_abandon(&connection, &s->state, &e));
}
static void act(stream *s, wt_event e, const uint8_t *bytes) {
  switch (e.kind) {
  case WT_EVENT_SESSION_REQUESTED:
    answer(s, WT_ASKED_SESSION, is_chat(&e) ? "200" : "404"); break;
  case WT_EVENT_HEADERS:
    if (e.detail != WT_HEADERS_REQUEST) break;
    if (is_connect(&e)) answer(s, WT_ASKED_CONNECT, "501"); /* a tunnel by another protocol */
    else answer(s, WT_ASKED_OTHER, "404");
    break;
  case WT_EVENT_TOO_LARGE: refuse_fields(s); break;
  case WT_EVENT_JOINS: if (join(s, e.number, &e)) act(s, e, bytes); break;
  case WT_EVENT_STREAM_DATA: quic_send(s->id, bytes + e.offset, e.length, 0); break;
  case WT_EVENT_END: quic_send(s->id, NULL, 0, 1); break;
  case WT_EVENT_SESSION_CLOSED: case WT_EVENT_SESSION_LOST: end_streams(s->id); break;
  case WT_EVENT_STREAM_ERROR: case WT_EVENT_MALFORMED: quic_end(s->id, e.number); break;
  case WT_EVENT_CONNECTION_ERROR: quic_close(e.number); break;
  }
}
static size_t read_events(stream *s, const uint8_t *bytes, size_t length, uint8_t fin) {
  size_t start = 0; wt_event e;
  do {
    if (!ok(wt_receive(&connection, &s->state, s->held, HELD, NULL, 0, bytes + start,
                       length - start, fin, &e, fields, FIELDS, out, OUT))) break;
    act(s, e, bytes + start);
    start += e.consumed;
  } while (e.kind != WT_EVENT_MORE && e.kind != WT_EVENT_WAITS);
  return start;
}

/* ---- The pieces ---- */

/* Reads what a stream has, and keeps what was not consumed. */
static void read_stream(stream *s) {
  size_t consumed = read_events(s, s->bytes, s->length, s->fin);
  s->length -= consumed;
  memmove(s->bytes, s->bytes + consumed, s->length);
}

static uint32_t waits_for(const stream *s, uint64_t *session) {
  uint32_t waits = WT_WAITS_NOTHING;
  return ok(wt_stream_waits(&s->state, &waits, session)) ? waits : WT_WAITS_NOTHING;
}

/* Reads again the streams that wait, until no wait ends by that: one may end that of another. */
static void wake(void) {
  size_t i;
  uint64_t session;
  wt_event e;
  int changed = 1;
  while (changed && !closed)
    for (changed = 0, i = 0; i < count; i++) {
      stream *s = streams[i];
      uint32_t waits = waits_for(s, &session);
      if (waits == WT_WAITS_NOTHING) continue;
      if (waits == WT_WAITS_SESSION && join(s, session, &e)) act(s, e, NULL);
      read_stream(s);
      changed |= waits_for(s, &session) != waits;
    }
}

/* The stream with an ID: a new one if it is not known. */
static stream *stream_of(uint64_t id) {
  stream *s = find(id);
  if (s != NULL) return s;
  s = (stream *)calloc(1, sizeof *s);
  if (s == NULL || count == 256) exit(1);
  s->id = id;
  if (!ok(wt_stream_accept(&connection, id, &s->state))) exit(1);
  return streams[count++] = s;
}

/* Adds the bytes that came on a stream to those that wait. If there is no room for them, the stream
   or the connection is over, and what waits is of no use. */
static void add(stream *s, const uint8_t *bytes, size_t length) {
  wt_event e;
  if (length > sizeof s->bytes - s->length) {
    s->length = 0;
    if (ok(wt_stream_overflow(&connection, &s->state, &e))) act(s, e, NULL);
  } else if (length > 0) {
    memcpy(s->bytes + s->length, bytes, length);
    s->length += length;
  }
}

int main(void) {
  static uint8_t piece[WINDOW];
  uint8_t head[4];
  begin();
  while (!closed && fread(head, 1, 4, stdin) == 4) {
    stream *s = stream_of(head[0]);
    size_t size = (size_t)head[2] << 8 | head[3];
    if (fread(piece, 1, size, stdin) != size) return 1;
    add(s, piece, size);
    s->fin = head[1];
    read_stream(s);
    wake();
  }
  while (count > 0) free(streams[--count]);
  return 0;
}
