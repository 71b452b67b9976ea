/* A client over h3.h: it asks for a session, and closes the session when it is open. In place of
   QUIC it reads pieces of the server's streams from standard input, as server.c does, and prints
   what QUIC would have to send. Its control stream is 2, and its request's is 0. cat pieces |
   client */
#include "h3.h"

static h3_connection connection;
static h3_stream own_control, control, request; /* 2, 3 and 0 */
static bool closed, request_ended;

/* ---- What QUIC does ---- */

void quic_send(h3_stream *s, const void *bytes, size_t length, bool fin) {
  const uint8_t *at = bytes;
  if (s == &request && request_ended) return;
  request_ended |= fin;
  printf("%u:", (unsigned)s->id);
  while (length-- > 0) printf(" %02x", *at++);
  puts(fin ? " end" : "");
}

void quic_reset(h3_stream *s, uint64_t code) {
  printf("%u: reset 0x%lx\n", (unsigned)s->id, (unsigned long)code);
}

void quic_stop(h3_stream *s, uint64_t code) {
  printf("%u: stop 0x%lx\n", (unsigned)s->id, (unsigned long)code);
}

/* (QUIC's window is not shown.) */
void quic_consume(h3_stream *s, size_t length) { (void)s, (void)length; }

h3_stream *quic_open(h3_connection *c, bool bidirectional) {
  h3_stream *s = bidirectional ? &request : &own_control;
  h3_add(c, s, true, bidirectional);
  s->id = bidirectional ? 0 : 2;
  return s;
}

/* (The client sends none.) */
void quic_send_datagram(h3_connection *c, const uint8_t *bytes, size_t length) {
  (void)c, (void)bytes, (void)length;
}

void quic_close(h3_connection *c, uint64_t code) {
  (void)c;
  if (!closed) printf("close 0x%lx\n", (unsigned long)code);
  closed = true;
}

/* ---- The client ---- */

/* Asks for the session at https://example.com/chat, if the settings of both ends allow sessions. */
static void ask(void) {
  if (wt_connection_allows_sessions(&connection.wt) == 1) {
    if (!h3_request(quic_open(&connection, true), "example.com", "/chat", false))
      quic_close(&connection, WT_H3_INTERNAL_ERROR);
  } else {
    puts("the server has no sessions");
    quic_close(&connection, WT_H3_NO_ERROR);
  }
}

void on_event(h3_stream *s, const h3_event *e) {
  switch (e->wt.kind) {
  case WT_EVENT_SETTINGS: ask(); break;
  case WT_EVENT_SESSION_READY:
    puts("the session is open");
    h3_close(s, 0, "done");
    break;
  case WT_EVENT_REJECTED:
    printf("status %u\n", (unsigned)e->wt.number);
    quic_send(s, NULL, 0, true);
    break;
  case WT_EVENT_DATA:
  case WT_EVENT_STREAM_DATA: quic_consume(s, e->wt.length); break;
  default: break;
  }
}

int main(void) {
  static const wt_setting settings[] = {{WT_SETTING_MAX_FIELD_SECTION_SIZE, H3_MAX_FIELDS},
                                        {WT_SETTING_H3_DATAGRAM, 1},
                                        {WT_SETTING_ENABLE_WEBTRANSPORT, 1}};
  static uint8_t piece[1 << 16];
  uint8_t head[4];
  h3_begin(&connection, false);
  h3_send_settings(&connection, settings, 3);
  h3_accept(&connection, &control, 3);
  while (!closed && fread(head, 1, 4, stdin) == 4) {
    h3_stream *s = h3_find(&connection, head[0]);
    size_t size = (size_t)head[2] << 8 | head[3];
    if (s == NULL || fread(piece, 1, size, stdin) != size) return 1;
    h3_receive(s, piece, size, head[1]);
    h3_settle(&connection);
  }
  free(control.room);
  free(request.room);
  return 0;
}
