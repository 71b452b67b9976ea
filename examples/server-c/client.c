/* A client of WebTransport that opens sessions on the server (server.c), through the proxy or not,
   in orders that the rules allow and that a network makes: streams before the CONNECT request of
   their session, SETTINGS after it, ends before the answer.
     client PORT SECONDS CERTIFICATE SESSIONS SEED [PID]
   It prints what failed, and ends with 'N passed, M failed': a check for each session, and one that
   each end used QPACK's dynamic table of the other. PID is the server's: then all sessions are
   plain, and one more check is that the server's memory after the last hundred of them is that after
   the first. */
#include "quic.h"
#include <inttypes.h>

enum {
  STREAMS = 10, /* of a session */
  EARLY = 3, /* of these before its request: 16 may wait on a connection */
  AT_ONCE = 5, /* sessions of a connection */
  PER_CONNECTION = 20,
  CONNECTIONS = 8, /* at once */
  MAX_SIZE = 20000,
  ORDERS = 4,
  HUNDREDS = 100, /* of sessions: after each the server's memory is noted */
  QUIET = 300000000, /* nanoseconds before that, in which the server forgets closed connections */
  GROWTH = 512 /* KiB that it may grow by, from the first to the last */
};

/* How a session begins. On a connection with LATE_SETTINGS all first requests come before the
 * SETTINGS. */
enum { PLAIN, STREAMS_FIRST, END_FIRST, ENDED_STREAMS_FIRST };
static const char *const orders[ORDERS] = {"plain", "streams before CONNECT",
                                           "CONNECT and its end before the answer",
                                           "ended streams and datagrams before the answer"};

typedef struct session {
  h3_stream *s;
  int number, order, opened, back;
  uint64_t due; /* when its request is sent; 0: it was sent */
  h3_stream *reset; /* a stream that is reset, until it is or the session ends */
  uint64_t resets; /* when */
  bool begun, ready, closing, over, failed;
} session;

typedef struct run { /* of a connection */
  session *sessions[AT_ONCE];
  int begun, left;
  bool allowed;
  uint64_t settings_due; /* when its SETTINGS are sent; 0: they were sent */
} run;

typedef struct echo { /* of a stream that was opened here */
  size_t size, came;
  uint8_t key;
  bool reset;
} echo;

static int port, wanted, begun, running, passed, failed;
static const char *server; /* its process, whose memory is noted; or null */
static long resident[HUNDREDS]; /* KiB */
static int noted; /* so many of these */
static unsigned long streams_back, resets, datagrams_sent, datagrams_back;
static uint64_t entries, instructed, settled; /* of QPACK's tables, as h3_connection has them */
static uint64_t random_state;
static quic_connection *live[CONNECTIONS];

static uint64_t random_below(uint64_t n) {
  random_state = random_state * 6364136223846793005u + 1442695040888963407u;
  return (random_state >> 33) % n;
}

static void *allocate(size_t size) {
  void *memory = calloc(1, size);
  if (memory == NULL) exit(1);
  return memory;
}

static bool is_request(const h3_stream *s) {
  return s->own && s->bidirectional && s->session == H3_NONE;
}

static session *of(h3_stream *s) {
  h3_stream *its = s->session == H3_NONE ? s : h3_find(s->c, s->session);
  return its && is_request(its) ? its->user : NULL;
}

static void fail(session *of_it, const char *what, uint64_t number) {
  if (of_it == NULL || of_it->failed) return;
  of_it->failed = true;
  printf("session %d (%s): %s %" PRIu64 "\n", of_it->number, orders[of_it->order], what, number);
}

/* Opens a stream before the session is open, which h3_open refuses. */
static h3_stream *open_early(h3_stream *session, bool bidirectional) {
  wt_stream_header header = {WT_STREAM_WEBTRANSPORT, session->id};
  uint8_t bytes[16];
  size_t size;
  int answer = bidirectional ? wt_session_frame_write(session->id, bytes, sizeof bytes, &size)
                             : wt_stream_header_write(&header, bytes, sizeof bytes, &size);
  return answer == WT_OK ? h3_open_with(session, bidirectional, bytes, size) : NULL;
}

/* Opens a stream, sends a text on it that can be checked, and ends it. */
static bool open_stream(session *of_it) {
  uint8_t bytes[MAX_SIZE];
  bool one_way = of_it->opened % 5 == 2;
  h3_stream *s = (of_it->ready ? h3_open : open_early)(of_it->s, !one_way);
  if (s == NULL) return false;
  echo *e = s->user = allocate(sizeof *e);
  e->size = of_it->opened % 4 == 3 ? random_below(MAX_SIZE) : random_below(200);
  e->key = (uint8_t)(2 + 4 * random_below(50)); /* not "!", for the server */
  if (one_way && e->size == 0) e->size = 1;
  for (size_t i = 0; i < e->size; i++) bytes[i] = (uint8_t)(e->key + 7 * i);
  quic_send(s, bytes, e->size, true);
  of_it->opened++;
  return true;
}

/* Opens a stream that is reset soon: the server resets its half, or knows nothing of it yet. */
static void open_reset_stream(session *of_it) {
  static const uint8_t bytes[5000] = "a stream that is reset";
  h3_stream *s = of_it->reset = h3_open(of_it->s, true);
  if (s == NULL) return;
  ((echo *)(s->user = allocate(sizeof(echo))))->reset = true;
  quic_send(s, bytes, sizeof bytes, false);
  of_it->resets = random_below(2) ? quic_now() + random_below(20000000) : 0;
}

static void send_datagram(session *of_it) {
  static const uint8_t text[] = "datagram";
  uint8_t bytes[24];
  size_t size;
  datagrams_sent++;
  if (of_it->ready) h3_send_datagram(of_it->s, text, 8);
  else if (wt_datagram_write(of_it->s->id, text, 8, bytes, sizeof bytes, &size) == WT_OK)
    quic_send_datagram(of_it->s->c, bytes, size);
}

/* Begins a session, once its stream is open. */
static void begin_session(session *of_it) {
  if (of_it->begun || of_it->s->id == H3_NONE) return;
  of_it->begun = true;
  if (of_it->order == STREAMS_FIRST)
    while (of_it->opened < EARLY && open_stream(of_it)) {
    }
  of_it->due = quic_now() + (of_it->order == STREAMS_FIRST ? random_below(50000000) : 0);
}

static void send_request(session *of_it) {
  of_it->due = 0;
  if (!h3_request(of_it->s, "localhost", "/echo", of_it->order == END_FIRST) ||
      of_it->order != ENDED_STREAMS_FIRST)
    return;
  while (of_it->opened < EARLY && open_stream(of_it)) {
  }
  send_datagram(of_it);
}

/* The resident memory of the server, in KiB; 0 if it is not known. */
static long resident_now(void) {
  char name[64], line[128];
  long size = 0;
  snprintf(name, sizeof name, "/proc/%s/status", server);
  FILE *file = fopen(name, "r");
  while (file && fgets(line, sizeof line, file))
    if (sscanf(line, "VmRSS: %ld", &size) == 1) break;
  if (file) fclose(file);
  return size;
}

/* Prints the memory after each hundred sessions. Returns whether it is flat. */
static bool is_flat(void) {
  bool known = noted > 1;
  printf("the server's memory after each 100 sessions, in KiB:");
  for (int i = 0; i < noted; i++) {
    printf(" %ld", resident[i]);
    known &= resident[i] > 0;
  }
  puts("");
  return known && resident[noted - 1] - resident[0] <= GROWTH;
}

/* How many sessions may begin: the next hundred when the memory was noted. */
static int limit(void) {
  int next = 100 * (noted + 1);
  return server && next < wanted ? next : wanted;
}

/* Notes the memory if the sessions so far are over, and their connections gone for a while. */
static void note(void) {
  static uint64_t since;
  if (running > 0 || begun < limit() || noted == HUNDREDS) since = 0;
  else if (since == 0) since = quic_now();
  else if (quic_now() - since >= QUIET) {
    resident[noted++] = resident_now();
    since = 0;
  }
}

/* Begins as many sessions as may run at once. */
static void begin_sessions(quic_connection *c) {
  run *r = c->h3.user;
  for (int i = 0; i < AT_ONCE; i++) {
    if (r->sessions[i] || r->begun == PER_CONNECTION || begun == limit()) continue;
    session *of_it = r->sessions[i] = allocate(sizeof *of_it);
    *of_it = (session){.number = begun, .order = server ? PLAIN : begun % ORDERS};
    of_it->s = quic_open(&c->h3, true);
    of_it->s->user = of_it;
    ((quic_stream *)of_it->s)->kept = true;
    r->begun++;
    begun++;
  }
}

/* Goes on with a session: its request, its streams, its end. Returns whether it is over. */
static bool go_on(session *of_it) {
  begin_session(of_it);
  if (of_it->due && quic_now() >= of_it->due) send_request(of_it);
  if (of_it->reset && quic_now() >= of_it->resets) {
    quic_reset(of_it->reset, wt_application_code_to_http3(7));
    of_it->reset = NULL;
  }
  if (of_it->order != END_FIRST && of_it->ready && !of_it->over)
    while (of_it->opened < STREAMS && open_stream(of_it)) {
    }
  if (of_it->order != END_FIRST && of_it->back == STREAMS && !of_it->closing) {
    of_it->closing = true;
    of_it->reset = NULL;
    h3_close(of_it->s, (uint32_t)of_it->number, "done");
  }
  return quic_is_closed((quic_stream *)of_it->s);
}

static void finish(session *of_it) {
  if (!of_it->ready) fail(of_it, "it was not accepted", 0);
  if (of_it->order != END_FIRST && of_it->back != STREAMS)
    fail(of_it, "streams that came back:", (uint64_t)of_it->back);
  if (of_it->failed) failed++;
  else passed++;
}

static void go_on_with_connection(quic_connection *c) {
  run *r = c->h3.user;
  int left = 0;
  if (!r->allowed) return;
  if (r->settings_due && quic_now() >= r->settings_due) {
    r->settings_due = 0;
    quic_send_settings(c);
  }
  for (int i = 0; i < AT_ONCE; i++)
    if (r->sessions[i] && go_on(r->sessions[i])) {
      finish(r->sessions[i]);
      r->sessions[i] = NULL;
    }
  begin_sessions(c);
  for (int i = 0; i < AT_ONCE; i++) left += r->sessions[i] != NULL;
  if (left == 0) quic_close(&c->h3, WT_H3_NO_ERROR);
}

static void begin_connection(void) {
  quic_connection *c = quic_connect(port);
  run *r = c->h3.user = allocate(sizeof *r);
  int i = 0;
  while (i < CONNECTIONS - 1 && live[i]) i++;
  live[i] = c;
  c->late_settings = random_below(2);
  r->settings_due = c->late_settings ? UINT64_MAX : 0;
  running++;
}

/* Between packets: begins connections and goes on with them. Returns whether all is done. */
static bool step(void) {
  if (server) note();
  for (int i = 0; i < CONNECTIONS; i++)
    if (live[i] && !live[i]->closing) go_on_with_connection(live[i]);
  while (running < CONNECTIONS && begun + running * PER_CONNECTION < limit()) begin_connection();
  return begun >= wanted && running == 0 && (!server || noted * 100 >= wanted);
}

/* Compares bytes that came on a stream with those that were sent. */
static void compare(h3_stream *s, session *of_it, const h3_event *e) {
  echo *own = s->user;
  quic_consume(s, e->wt.length);
  if (own && own->reset) return;
  if (own == NULL) { /* one that comes back */
    own = s->user = allocate(sizeof *own);
    own->key = e->bytes[0];
  }
  for (size_t i = 0; i < e->wt.length; i++)
    if (e->bytes[i] != (uint8_t)(own->key + 7 * (own->came + i)))
      fail(of_it, "another byte came", own->came + i);
  own->came += e->wt.length;
}

/* A stream of a session ended. */
static void came_back(h3_stream *s, session *of_it) {
  echo *own = s->user;
  if (own && own->reset) return;
  if (s->own && own->came != own->size)
    fail(of_it, "a stream came back with the length", own->came);
  of_it->back++;
  streams_back++;
}

void on_event(h3_stream *s, const h3_event *e) {
  session *of_it = of(s);
  echo *own = is_request(s) ? NULL : s->user;
  run *r = s->c->user;
  switch (e->wt.kind) {
  case WT_EVENT_SETTINGS:
    r->allowed = wt_connection_allows_sessions(&s->c->wt) == 1;
    if (r->settings_due) r->settings_due = quic_now() + random_below(100000000);
    if (!r->allowed) quic_close(s->c, WT_H3_NO_ERROR);
    break;
  case WT_EVENT_SESSION_READY:
    of_it->ready = true;
    if (of_it->order != END_FIRST) send_datagram(of_it);
    if (of_it->order == PLAIN) open_reset_stream(of_it);
    break;
  case WT_EVENT_REJECTED: fail(of_it, "the answer was", e->wt.number); break;
  case WT_EVENT_SESSION_CLOSED:
  case WT_EVENT_SESSION_LOST:
    of_it->over = true;
    of_it->reset = NULL;
    if (of_it->order != END_FIRST && !of_it->closing) fail(of_it, "the session ended", e->wt.kind);
    break;
  case WT_EVENT_STREAM_DATA: compare(s, of_it, e); break;
  case WT_EVENT_END:
    if (of_it && !is_request(s)) came_back(s, of_it);
    break;
  case WT_EVENT_RESET:
    if (own && own->reset) resets++;
    else fail(of_it, "a stream was reset with", e->code);
    break;
  case WT_EVENT_STREAM_ERROR:
  case WT_EVENT_MALFORMED: fail(of_it, "the event", e->wt.kind); break;
  case WT_EVENT_DATAGRAM:
    if (e->wt.length == 8 && !memcmp(e->bytes, "datagram", 8)) datagrams_back++;
    else fail(of_it, "a datagram of the length", e->wt.length);
    break;
  default: break;
  }
}

void on_gone(quic_connection *c, uint64_t code) {
  run *r = c->h3.user;
  if (code != WT_H3_NO_ERROR) printf("a connection ended with 0x%" PRIx64 "\n", code);
  entries += c->h3.inserted;
  instructed += c->h3.instructed;
  settled += c->h3.settled;
  for (int i = 0; i < AT_ONCE; i++)
    if (r->sessions[i]) {
      fail(r->sessions[i], "its connection ended", code);
      finish(r->sessions[i]);
    }
  for (int i = 0; i < CONNECTIONS; i++)
    if (live[i] == c) live[i] = NULL;
  running--;
  free(r);
}

/* Prints what was done with QPACK's tables. Returns whether each end used that of the other. */
static bool are_tables_used(void) {
  printf("%" PRIu64 " entries of tables, %" PRIu64 " bytes of instructions, %" PRIu64
         " sections acknowledged\n",
         entries, instructed, settled);
  return entries > 0 && instructed > 0 && settled > 0;
}

int main(int count, char **arguments) {
  if (count != 6 && count != 7) {
    fputs("usage: client PORT SECONDS CERTIFICATE SESSIONS SEED [PID]\n", stderr);
    return 2;
  }
  port = atoi(arguments[1]);
  wanted = atoi(arguments[4]);
  random_state = strtoull(arguments[5], NULL, 10);
  server = count == 7 ? arguments[6] : NULL;
  quic_begin(0, arguments[3], NULL);
  quic_run(atof(arguments[2]), step);
  failed += wanted - passed - failed;
  if (server) *(is_flat() ? &passed : &failed) += 1;
  *(are_tables_used() ? &passed : &failed) += 1;
  printf("%lu streams came back, %lu were reset, %lu of %lu datagrams came back\n", streams_back,
         resets, datagrams_back, datagrams_sent);
  printf("%d passed, %d failed\n", passed, failed);
  return failed != 0;
}
