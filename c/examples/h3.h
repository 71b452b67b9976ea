/* A connection of HTTP/3 and WebTransport, for a QUIC stack that gives the bytes of a stream once:
   it keeps the streams with the bytes that wait, lets streams join their sessions, does what the
   events require of QUIC, and passes them on. Copy it into your program, with fields.h and
   h3_table.h. client.c is a small program over it, and examples/server-c a server and a client over
   ngtcp2.

   The program defines the functions of "What QUIC does" and on_event, and calls those of "What QUIC
   says". It has the memory of each h3_connection and h3_stream, which begin as zeros and may be the
   first parts of larger structs. All of them are called in one thread. */
#ifndef H3_H
#define H3_H
#include "fields.h"
#include <stdbool.h>
#include <stdio.h>
#include <stdlib.h>

/* The capacity of QPACK's dynamic table for what is received, in bytes, and the largest that is used
   of the peer's for what is sent: 0, if the program does not define it, for none. */
#ifndef H3_TABLE
#define H3_TABLE 0
#endif

enum {
  H3_BLOCKED = 16, /* streams that may wait for entries of the table */
  H3_SECTIONS = H3_TABLE > 0 ? 64 : 0, /* that refer to the peer's table and are not acknowledged */
  H3_WINDOW = 1 << 18, /* QUIC's window of a stream: the most bytes of it that are not consumed */
  H3_MAX_FIELDS = 1 << 14, /* of a decoded field section: the own SETTINGS announce it */
  H3_MAX_SECTION = 1 << 14, /* of an encoded one: it is whole before it is read, so it is shorter
                               than the window */
  H3_MAX_HEAD = 1200, /* of what is written for a field_list: its texts have at most 1024 bytes */
  H3_MAX_DATAGRAM = 1100 /* each packet of QUIC has room for it */
};
#define H3_NONE UINT64_MAX

typedef struct h3_stream h3_stream;

typedef struct h3_connection {
  wt_connection wt;
  bool server;
  h3_stream *streams; /* all of them, from the first one on */
  h3_stream *own_encoder, *own_decoder; /* the own streams of QPACK, or null */
  uint64_t inserted; /* entries that the peer inserted into the table */
  uint64_t instructed; /* bytes that were sent on the own encoder stream, after its type */
  uint64_t settled; /* sections that referred to the peer's table: it read or cancelled so many */
  uint8_t table[WT_TABLE_SIZE(H3_TABLE)];
  uint8_t encoder[WT_ENCODER_SIZE(H3_TABLE, H3_SECTIONS)];
  void *user; /* the program's */
} h3_connection;

struct h3_stream {
  h3_connection *c;
  h3_stream *next;
  uint64_t id; /* H3_NONE: QUIC did not open it yet */
  bool own, bidirectional;
  bool over; /* nothing more is read */
  bool is_decoder; /* it is the peer's decoder stream, and the encoder reads it */
  uint64_t session; /* that it joined, or H3_NONE */
  wt_stream wt;
  wt_sending sending; /* of a request or its response */
  wt_hold hold;
  uint8_t *room; /* of the hold, while it holds something */
  uint8_t held[H3_MAX_DATAGRAM]; /* of a capsule that is cut */
  uint32_t waits; /* one of WT_WAITS_.. */
  uint64_t awaited; /* the session that it waits for, or the number of insertions */
  void *user; /* the program's */
  uint64_t content; /* the program's */
};

/* An event of a stream, as wt_receive has it, or a datagram of a session. */
typedef struct h3_event {
  wt_event wt;
  const uint8_t *bytes; /* wt.length bytes of data, or of a datagram */
  const wt_field *fields; /* with their texts in out */
  const uint8_t *out;
  uint64_t code; /* of a reset: QUIC's */
} h3_event;

/* The program's: an event of a stream. What the connection requires is done already. The bytes of
   WT_EVENT_DATA and WT_EVENT_STREAM_DATA are to be consumed by quic_consume, now or later. */
void on_event(h3_stream *s, const h3_event *e);

/* ---- What QUIC does: the program defines it ---- */

/* Sends bytes on a stream, and ends it if fin is set: nothing if its own half is over, or if it has
   none. */
void quic_send(h3_stream *s, const void *bytes, size_t length, bool fin);

/* Resets the own half of a stream, if it has one, or asks the peer to stop its half. */
void quic_reset(h3_stream *s, uint64_t code);
void quic_stop(h3_stream *s, uint64_t code);

/* Lets the peer send as many bytes more, on the stream and the connection. */
void quic_consume(h3_stream *s, size_t length);

/* Opens a stream, at once or when the peer allows it, and adds it by h3_add. Never null: what is sent
   on it before the peer allows it waits. */
h3_stream *quic_open(h3_connection *c, bool bidirectional);

void quic_send_datagram(h3_connection *c, const uint8_t *bytes, size_t length);

/* Closes the connection with an error code; a second time does nothing. */
void quic_close(h3_connection *c, uint64_t code);

/* ---- What the library answers ---- */

static inline void h3_act(h3_stream *s, const h3_event *e);

/* Whether a call of the library succeeded: the connection is closed if it did not. */
static inline bool h3_ok(h3_connection *c, int answer) {
  if (answer != WT_OK) quic_close(c, WT_H3_INTERNAL_ERROR);
  return answer == WT_OK;
}

#include "h3_table.h"

/* ---- Ends of streams ---- */

/* Drops the bytes that are held: no event consumes them any more. */
static inline void h3_drop(h3_stream *s) {
  h3_tell_dropped(s);
  quic_consume(s, s->hold.end - s->hold.start);
  s->hold = (wt_hold){0};
  s->waits = WT_WAITS_NOTHING;
  s->over = true;
}

/* Reads a stream no further. */
static inline void h3_abandon(h3_stream *s) {
  h3_event e = {0};
  h3_drop(s);
  if (h3_ok(s->c, wt_stream_abandon(&s->c->wt, &s->wt, &e.wt))) h3_act(s, &e);
}

static inline void h3_end_stream(h3_stream *s, uint64_t code) {
  quic_reset(s, code);
  quic_stop(s, code);
  h3_abandon(s);
}

/* Ends the streams of a session that is over, and the own half of its own stream. */
static inline void h3_end_session(h3_stream *session) {
  quic_send(session, NULL, 0, true);
  for (h3_stream *s = session->c->streams; s; s = s->next)
    if (s->session == session->id) h3_end_stream(s, WT_WEBTRANSPORT_SESSION_GONE);
}

/* ---- What is sent ---- */

/* Begins the own control stream with these settings. */
static inline void h3_send_settings(h3_connection *c, const wt_setting *settings, size_t count) {
  wt_control control;
  uint8_t bytes[160];
  size_t size;
  uint32_t why;
  if (h3_ok(c, wt_control_new(&c->wt, &control)) &&
      h3_ok(c, wt_control_settings(&control, settings, count, bytes, sizeof bytes, &size, &why)))
    quic_send(quic_open(c, false), bytes, size, false);
}

/* Sends the fields of a message. Returns whether they may be sent. */
static inline bool h3_send_fields(h3_stream *s, const field_list *f) {
  uint8_t bytes[H3_MAX_HEAD];
  size_t size;
  if (!h3_write_fields(s, f, bytes, &size)) return false;
  quic_send(s, bytes, size, false);
  return true;
}

/* Sends content of a message. Returns whether it may be sent. */
static inline bool h3_send_content(h3_stream *s, const void *content, size_t length) {
  uint8_t head[16];
  size_t size;
  uint32_t why;
  if (length == 0) return true;
  if (wt_sending_data(&s->sending, length, head, sizeof head, &size, &why) != WT_OK ||
      wt_sending_sent(&s->sending, length, &why) != WT_OK)
    return false;
  quic_send(s, head, size, false);
  quic_send(s, content, length, false);
  return true;
}

/* Sends fields and content of a message, and ends it if fin is set. Returns whether it may be sent:
   the stream is ended if it may not. */
static inline bool h3_send_message(h3_stream *s, const field_list *f, const void *content,
                                   size_t length, bool fin) {
  uint32_t why;
  if (!h3_send_fields(s, f) || !h3_send_content(s, content, length) ||
      (fin && wt_sending_finish(&s->sending, &why) != WT_OK)) {
    h3_end_stream(s, WT_H3_INTERNAL_ERROR);
    return false;
  }
  if (fin) quic_send(s, NULL, 0, true);
  return true;
}

/* Sends a response with one more field, or none if name is null, and content, and ends it if fin is
   set. That to a request for a session opens it if the status is 2xx. */
static inline void h3_respond(h3_stream *s, uint32_t status, const char *name, const char *value,
                              const void *content, size_t length, bool fin) {
  field_list f = {.count = 0};
  char text[12];
  snprintf(text, sizeof text, "%u", (unsigned)status);
  if (!field_add(&f, ":status", text) || (name && !field_add(&f, name, value)))
    h3_end_stream(s, WT_H3_INTERNAL_ERROR);
  else if (h3_send_message(s, &f, content, length, fin))
    h3_ok(s->c, wt_stream_answer(&s->wt, status));
}

/* Sends the request for the session at an authority and a path, on a bidirectional stream that QUIC
   opened, after WT_EVENT_SETTINGS and if wt_connection_allows_sessions. Returns whether it may be
   sent: the stream is ended if it may not. */
static inline bool h3_request(h3_stream *s, const char *authority, const char *path, bool fin) {
  field_list f = {.count = 0};
  uint32_t why;
  if (!field_add(&f, ":method", "CONNECT") || !field_add(&f, ":scheme", "https") ||
      !field_add(&f, ":protocol", "webtransport") || !field_add(&f, ":authority", authority) ||
      !field_add(&f, ":path", path) ||
      wt_stream_of_request(&s->c->wt, WT_ASKED_SESSION, &s->wt) != WT_OK ||
      wt_sending_request(&s->c->wt, s->id, &s->sending, &why) != WT_OK) {
    h3_end_stream(s, WT_H3_INTERNAL_ERROR);
    return false;
  }
  return h3_send_message(s, &f, NULL, 0, fin);
}

/* Opens a stream of a session that begins with these bytes. */
static inline h3_stream *h3_open_with(h3_stream *session, bool bidirectional, const uint8_t *bytes,
                                      size_t size) {
  h3_stream *s = quic_open(session->c, bidirectional);
  s->session = session->id;
  h3_ok(s->c, wt_stream_of_session(s->session, &s->wt));
  quic_send(s, bytes, size, false);
  return s;
}

/* Opens a stream of a session, on which quic_send sends; null if the session is not open. */
static inline h3_stream *h3_open(h3_stream *session, bool bidirectional) {
  uint8_t bytes[16];
  size_t size;
  uint32_t why;
  int answer = (bidirectional ? wt_sending_bidirectional : wt_sending_unidirectional)(
      &session->sending, bytes, sizeof bytes, &size, &why);
  return answer == WT_OK ? h3_open_with(session, bidirectional, bytes, size) : NULL;
}

/* Sends a datagram of a session, or drops it if it is too long or the session is not open. */
static inline void h3_send_datagram(h3_stream *session, const void *bytes, size_t length) {
  uint8_t datagram[H3_MAX_DATAGRAM];
  size_t size;
  uint32_t why;
  if (wt_sending_datagram(&session->sending, datagram, sizeof datagram, &size, &why) != WT_OK ||
      length > sizeof datagram - size)
    return;
  if (length > 0) memcpy(datagram + size, bytes, length);
  quic_send_datagram(session->c, datagram, size + length);
}

/* Closes a session, with a reason in UTF-8. */
static inline void h3_close(h3_stream *session, uint32_t code, const char *reason) {
  uint8_t bytes[1100];
  size_t size;
  uint32_t why;
  if (wt_sending_close(&session->sending, code, (const uint8_t *)reason, strlen(reason), bytes,
                       sizeof bytes, &size, &why) != WT_OK)
    return;
  quic_send(session, bytes, size, true);
  h3_abandon(session);
}

/* ---- What is read ---- */

/* The stream with this ID, or null. */
static inline h3_stream *h3_find(const h3_connection *c, uint64_t id) {
  h3_stream *s = c->streams;
  while (s && s->id != id) s = s->next;
  return s;
}

/* Whether the field with this name of an event has this value. */
static inline bool h3_field_is(const h3_event *e, const char *name, const char *value) {
  return field_is(e->fields, e->wt.fields, e->out, name, value);
}

/* Begins the response to a request, by what it asks for. */
static inline void h3_begin_response(h3_stream *s, const h3_event *e) {
  uint32_t asked = WT_ASKED_OTHER, why;
  if (e->wt.kind == WT_EVENT_SESSION_REQUESTED) asked = WT_ASKED_SESSION;
  else if (h3_field_is(e, ":method", "HEAD")) asked = WT_ASKED_HEAD;
  else if (h3_field_is(e, ":method", "CONNECT")) asked = WT_ASKED_CONNECT;
  h3_ok(s->c, wt_sending_response(&s->c->wt, s->id, asked, &s->sending, &why));
}

/* Answers a request whose fields are above the limits (RFC 6585, section 5), or takes the own one
   back, and reads no further. */
static inline void h3_refuse_fields(h3_stream *s) {
  if (s->c->server) {
    h3_respond(s, 431, NULL, NULL, NULL, 0, true);
    quic_stop(s, WT_H3_NO_ERROR);
    h3_abandon(s);
  } else h3_end_stream(s, WT_H3_REQUEST_CANCELLED);
}

static inline uint32_t h3_known(h3_connection *c, uint64_t session) {
  const h3_stream *its = h3_find(c, session);
  uint32_t known = WT_KNOWN_IMPOSSIBLE;
  h3_ok(c, wt_session_known(&c->wt, session, its ? &its->wt : NULL, its != NULL, &known));
  return known;
}

/* Says what is known of the session of a stream. */
static inline void h3_join(h3_stream *s, uint64_t session) {
  h3_event e = {0};
  if (h3_ok(s->c, wt_stream_join(&s->c->wt, &s->wt, h3_known(s->c, session), &e.wt))) h3_act(s, &e);
}

/* Does what an event requires, and passes it on. */
static inline void h3_act(h3_stream *s, const h3_event *e) {
  uint32_t why;
  switch (e->wt.kind) {
  case WT_EVENT_MORE: return;
  case WT_EVENT_WAITS:
    s->waits = e->wt.detail;
    s->awaited = e->wt.number;
    if (s->waits == WT_WAITS_TABLE) h3_count_blocked(s->c);
    return;
  case WT_EVENT_INSERTED: return;
  case WT_EVENT_JOINS: h3_join(s, e->wt.number); return;
  case WT_EVENT_CONNECTION_ERROR: quic_close(s->c, e->wt.number); return;
  case WT_EVENT_OPENED:
    s->is_decoder = H3_TABLE > 0 && e->wt.detail == WT_PURPOSE_DECODER;
    if (e->wt.detail == WT_PURPOSE_IGNORED) h3_end_stream(s, WT_H3_STREAM_CREATION_ERROR);
    return;
  case WT_EVENT_SETTINGS: h3_use_settings(s->c); break;
  case WT_EVENT_HEADERS:
    if (e->wt.detail == WT_HEADERS_REQUEST) h3_begin_response(s, e);
    break;
  case WT_EVENT_SESSION_REQUESTED: h3_begin_response(s, e); break;
  case WT_EVENT_SESSION_READY: (void)wt_sending_connected(&s->sending, &why); break;
  case WT_EVENT_JOINED: s->session = e->wt.number; break;
  case WT_EVENT_SESSION_CLOSED:
  case WT_EVENT_SESSION_LOST: h3_end_session(s); break;
  case WT_EVENT_STREAM_ERROR:
  case WT_EVENT_MALFORMED: /* its session ends next */
    quic_reset(s, e->wt.number);
    quic_stop(s, e->wt.number);
    h3_drop(s);
    break;
  case WT_EVENT_RESET:
    if (e->wt.detail == 1) quic_reset(s, e->wt.number);
    break;
  case WT_EVENT_TOO_LARGE: h3_refuse_fields(s); break;
  default: break;
  }
  on_event(s, e);
}

/* ---- What QUIC says: the program calls it ---- */

/* Begins a connection, whose own SETTINGS allow sessions, datagrams, fields of H3_MAX_FIELDS, and, if
   that is not 0, a table of H3_TABLE with H3_BLOCKED streams. */
static inline void h3_begin(h3_connection *c, bool server) {
  static const wt_policy policy = {H3_TABLE / 4, H3_TABLE / 8, H3_SECTIONS};
  wt_endpoint endpoint = {server,          1,  1, server, H3_MAX_SECTION, H3_MAX_FIELDS,
                          H3_MAX_DATAGRAM, {0}};
  c->server = server;
  h3_ok(c, wt_connection_new(WT_ABI, &endpoint, &c->wt));
  h3_ok(c, wt_table_new(H3_TABLE, c->table, sizeof c->table));
  h3_ok(c, wt_encoder_new(&policy, c->encoder, sizeof c->encoder));
}

/* Adds a stream, which is zeros; QUIC says its ID now or later. When QUIC and the program need it
   no more, and not h3_ends_later, the program takes it from the list and frees its room. A client
   keeps its requests for sessions as long as the connection. */
static inline void h3_add(h3_connection *c, h3_stream *s, bool own, bool bidirectional) {
  h3_stream **at = &c->streams;
  s->c = c;
  s->id = s->session = H3_NONE;
  s->own = own;
  s->bidirectional = bidirectional;
  while (*at) at = &(*at)->next;
  *at = s;
}

/* The peer opened a stream, which is zeros. */
static inline void h3_accept(h3_connection *c, h3_stream *s, uint64_t id) {
  h3_event e = {0};
  h3_add(c, s, false, !(id & 2));
  s->id = id;
  h3_ok(c, wt_stream_accept(&c->wt, id, &s->wt));
  if (c->server && s->bidirectional) h3_begin_response(s, &e);
}

/* Bytes came on a stream, and its end if fin is set. What waits is held: at most H3_WINDOW, if QUIC
   lets the peer send no more than what is consumed and that. */
static inline void h3_receive(h3_stream *s, const uint8_t *bytes, size_t length, bool fin) {
  static wt_field fields[H3_MAX_FIELDS / 32];
  static uint8_t out[H3_MAX_FIELDS];
  h3_event e = {.fields = fields, .out = out};
  bool pauses;
  s->waits = WT_WAITS_NOTHING;
  do {
    if (s->is_decoder) { /* of which nothing is held: only its end is read below */
      h3_tell_encoder(s, bytes, length);
      length = 0;
    }
    if (!h3_ok(s->c,
               wt_receive_pushed(&s->c->wt, &s->wt, s->held, sizeof s->held,
                                 h3_uses_table(s) ? s->c->table : NULL,
                                 h3_uses_table(s) ? sizeof s->c->table : 0, &s->hold, s->room,
                                 s->room ? H3_WINDOW : 0, bytes, length, fin, &e.wt, fields,
                                 H3_MAX_FIELDS / 32, out, sizeof out)))
      return;
    h3_tell_read(s, &e);
    bool is_content = e.wt.kind == WT_EVENT_DATA || e.wt.kind == WT_EVENT_STREAM_DATA;
    quic_consume(s, e.wt.consumed - (is_content ? e.wt.length : 0));
    e.bytes = (s->hold.in_array ? s->room : bytes) + e.wt.offset;
    bytes += s->hold.taken;
    length -= s->hold.taken;
    if (e.wt.kind == WT_EVENT_DATAGRAM) { /* of a capsule */
      e.bytes = out;
      e.wt.length = e.wt.used;
    }
    h3_act(s, &e);
    pauses = e.wt.kind == WT_EVENT_MORE || e.wt.kind == WT_EVENT_WAITS;
    if (pauses && length > 0 && s->room == NULL)
      pauses = (s->room = (uint8_t *)malloc(H3_WINDOW)) == NULL;
  } while (!pauses);
  if (length > 0 && h3_ok(s->c, wt_stream_overflow(&s->c->wt, &s->wt, &e.wt))) h3_act(s, &e);
  if (s->hold.start < s->hold.end) return;
  free(s->room);
  s->room = NULL;
  s->hold.start = s->hold.end = 0;
  s->over |= s->hold.fin && s->waits == WT_WAITS_NOTHING;
}

/* The peer reset a stream, with this code. */
static inline void h3_was_reset(h3_stream *s, uint64_t code) {
  h3_event e = {0};
  e.code = code;
  if (!h3_ok(s->c, wt_stream_reset(&s->c->wt, &s->wt, &e.wt))) return;
  h3_drop(s);
  h3_act(s, &e);
}

/* Whether the stream waits for the table with all that the peer sent on it: h3_settle reads it later,
   also if both halves are closed. */
static inline bool h3_ends_later(const h3_stream *s) {
  return s->waits == WT_WAITS_TABLE && s->hold.fin;
}

/* The peer stopped the own half of a stream, or both halves are closed and QUIC forgets it. */
static inline void h3_was_stopped(h3_stream *s, bool closed) {
  h3_event e = {0};
  uint64_t code;
  if (closed && h3_ends_later(s)) return;
  if (s->own && !s->bidirectional && s->session == H3_NONE) { /* of control or QPACK */
    uint32_t purpose = s == s->c->own_encoder   ? WT_PURPOSE_ENCODER
                       : s == s->c->own_decoder ? WT_PURPOSE_DECODER
                                                : WT_PURPOSE_CONTROL;
    if (wt_stopped(&s->c->wt, purpose, &code) == WT_ERROR) quic_close(s->c, code);
  } else if (closed) h3_abandon(s);
  else if (h3_ok(s->c, wt_stream_stop(&s->c->wt, &s->wt, &e.wt))) h3_act(s, &e);
}

/* A datagram came. One that is early is dropped. */
static inline void h3_receive_datagram(h3_connection *c, const uint8_t *bytes, size_t length) {
  h3_event e = {0};
  if (!h3_ok(c, wt_datagram_receive(&c->wt, bytes, length, &e.wt))) return;
  if (e.wt.kind == WT_EVENT_CONNECTION_ERROR) quic_close(c, e.wt.number);
  if (e.wt.kind != WT_EVENT_DATAGRAM) return;
  h3_stream *its = h3_find(c, e.wt.number);
  int use = wt_datagram_use(h3_known(c, e.wt.number));
  e.bytes = bytes + e.wt.offset;
  if (its && use == WT_DATAGRAM_DELIVER) on_event(its, &e);
  if (its && use == WT_DATAGRAM_END_STREAM) h3_end_stream(its, WT_H3_DATAGRAM_ERROR);
}

/* To be called after all of these: reads again the streams whose wait may be over. One may end that
   of another. */
static inline void h3_settle(h3_connection *c) {
  bool woken;
  do {
    woken = false;
    for (h3_stream *s = c->streams; s; s = s->next) {
      if (s->waits == WT_WAITS_NOTHING ||
          (s->waits == WT_WAITS_TABLE && s->awaited > s->c->inserted))
        continue;
      if (s->waits == WT_WAITS_SESSION) h3_join(s, s->awaited);
      h3_receive(s, (const uint8_t *)"", 0, false);
      woken |= s->waits == WT_WAITS_NOTHING;
    }
  } while (woken);
}
#endif
