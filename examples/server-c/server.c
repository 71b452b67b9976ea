/* A server of HTTP/3 and WebTransport on 127.0.0.1: a page, POST with a body of any length, and
   sessions at /echo. There what comes on a bidirectional stream goes back on it, what comes on a
   unidirectional one goes back on another, and so does each datagram; a bidirectional stream that
   begins with ! has a command. server PORT SECONDS CERTIFICATE KEY PAGE It prints the results that
   the page sends, and ends after the page's last one, or the time. */
#include "quic.h"
#include <inttypes.h>
#include <signal.h>

enum { MAX_COMMAND = 1024, MAX_ONE_WAY = 1 << 20, PAGE = 1 << 16 };

typedef struct text { /* of a stream that is read to its end */
  size_t length;
  uint8_t bytes[];
} text;

static char page[PAGE];
static size_t page_size;
static volatile bool done;
static unsigned long sessions, closed, streams, datagrams, resets;
static uint64_t entries, instructed, settled; /* of QPACK's tables, as h3_connection has them */

static bool stop(void) { return done; }
static void on_signal(int number) { (void)number, done = true; }

static void reset(h3_stream *s, uint32_t code) {
  quic_reset(s, wt_application_code_to_http3(code));
}

/* Adds bytes to the text of a stream. */
static void keep(h3_stream *s, const uint8_t *bytes, size_t length) {
  text *t = s->user;
  size_t had = t ? t->length : 0;
  if ((t = s->user = realloc(t, sizeof *t + had + length)) == NULL) exit(1);
  if (length > 0) memcpy(t->bytes + had, bytes, length);
  t->length = had + length;
}

/* "!close CODE REASON": the session of a stream; "!reset CODE": the stream; "!open": another. */
static void command(h3_stream *s) {
  h3_stream *session = h3_find(s->c, s->session), *other;
  keep(s, (const uint8_t *)"", 1);
  char *line = (char *)((text *)s->user)->bytes, *space = strchr(line, ' '), *rest = line;
  uint32_t code = space ? (uint32_t)strtoul(space + 1, &rest, 10) : 0;
  if (!strncmp(line, "!close ", 7) && session) h3_close(session, code, *rest ? rest + 1 : "");
  else if (!strncmp(line, "!reset ", 7)) reset(s, code);
  else if (!strcmp(line, "!open") && session && (other = h3_open(session, true))) {
    quic_send(other, "hello", 5, true);
    quic_send(s, "opened", 6, true);
  } else reset(s, 1);
}

static void request(h3_stream *s, const h3_event *e) {
  size_t length;
  const uint8_t *path = field_value(e->fields, e->wt.fields, e->out, ":path", &length);
  bool head = h3_field_is(e, ":method", "HEAD");
  if (h3_field_is(e, ":method", "CONNECT")) /* a tunnel by a protocol that it does not know */
    h3_respond(s, 501, NULL, NULL, NULL, 0, true);
  else if (h3_field_is(e, ":method", "POST")) { /* answered at its end */
    keep(s, NULL, 0);
    if (length > 8 && !memcmp(path, "/result?", 8)) printf("%.*s\n", (int)length - 8, path + 8);
    if (h3_field_is(e, ":path", "/done")) done = true;
    fflush(stdout);
  } else if (!head && !h3_field_is(e, ":method", "GET"))
    h3_respond(s, 405, "allow", "GET, HEAD, POST", NULL, 0, true);
  else if (length > 0 && path[0] == '/' && (length == 1 || path[1] == '?'))
    h3_respond(s, 200, "content-type", "text/html; charset=utf-8", page, head ? 0 : page_size,
               true);
  else h3_respond(s, 404, NULL, NULL, NULL, 0, true);
}

static void request_session(h3_stream *s, bool echo) {
  sessions += echo;
  h3_respond(s, echo ? 200 : 404, "sec-webtransport-http3-draft", "draft02", NULL, 0, !echo);
}

static void answer_post(h3_stream *s) {
  char line[40];
  int length = snprintf(line, sizeof line, "%" PRIu64 " bytes\n", s->content);
  h3_respond(s, 200, "content-type", "text/plain", line, (size_t)length, true);
}

static void session_data(h3_stream *s, const uint8_t *bytes, size_t length) {
  bool kept = !s->bidirectional || s->user || (s->content == 0 && length > 0 && bytes[0] == '!');
  s->content += length;
  if (!kept && !s->own) {
    quic_send(s, bytes, length, false);
    quic_consume_later(s, length);
    return;
  }
  quic_consume(s, length);
  if (s->own) return; /* opened here, by a command */
  if (s->content <= (s->bidirectional ? MAX_COMMAND : MAX_ONE_WAY)) keep(s, bytes, length);
  else quic_stop(s, wt_application_code_to_http3(1));
}

static void session_end(h3_stream *s) {
  h3_stream *session = h3_find(s->c, s->session), *back;
  if (s->bidirectional && s->user) command(s);
  else if (s->bidirectional) quic_send(s, NULL, 0, true);
  else if (session && (back = h3_open(session, false))) {
    keep(s, NULL, 0);
    quic_send(back, ((text *)s->user)->bytes, ((text *)s->user)->length, true);
  }
}

void on_event(h3_stream *s, const h3_event *e) {
  bool of_session = s->session != H3_NONE;
  uint32_t code;
  switch (e->wt.kind) {
  case WT_EVENT_HEADERS:
    if (e->wt.detail == WT_HEADERS_REQUEST) request(s, e);
    break;
  case WT_EVENT_SESSION_REQUESTED: request_session(s, h3_field_is(e, ":path", "/echo")); break;
  case WT_EVENT_JOINED: streams++; break;
  case WT_EVENT_DATA:
    s->content += e->wt.length;
    quic_consume(s, e->wt.length);
    break;
  case WT_EVENT_STREAM_DATA: session_data(s, e->bytes, e->wt.length); break;
  case WT_EVENT_DATAGRAM:
    datagrams++;
    h3_send_datagram(s, e->bytes, e->wt.length);
    break;
  case WT_EVENT_RESET:
    resets++;
    if (of_session && wt_application_code_from_http3(e->code, &code) == WT_OK) reset(s, code);
    break;
  case WT_EVENT_SESSION_CLOSED:
  case WT_EVENT_SESSION_LOST: closed++; break;
  case WT_EVENT_END:
    if (of_session) session_end(s);
    else if (s->user) answer_post(s);
    break;
  default: break;
  }
}

void on_gone(quic_connection *c, uint64_t code) {
  (void)code;
  entries += c->h3.inserted;
  instructed += c->h3.instructed;
  settled += c->h3.settled;
}

int main(int count, char **arguments) {
  FILE *file = count == 6 ? fopen(arguments[5], "rb") : NULL;
  if (file == NULL) {
    fputs("usage: server PORT SECONDS CERTIFICATE KEY PAGE\n", stderr);
    return 2;
  }
  page_size = fread(page, 1, PAGE, file);
  fclose(file);
  signal(SIGTERM, on_signal);
  printf("listening on 127.0.0.1:%d\n", quic_begin(atoi(arguments[1]), arguments[3], arguments[4]));
  fflush(stdout);
  quic_run(atof(arguments[2]), stop);
  printf("%lu sessions, %lu closed, %lu streams, %lu datagrams, %lu resets, %" PRIu64
         " entries of tables, %" PRIu64 " bytes of instructions, %" PRIu64
         " sections acknowledged\n",
         sessions, closed, streams, datagrams, resets, entries, instructed, settled);
  return 0;
}
