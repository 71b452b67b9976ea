/* Whole connections beside nghttp3: its client and our server, and our client and its server. Pieces of all
   streams come both ways in random turns; answers begin in between, early or at the end of their request, and
   some requests are cancelled. What the events of wt_receive say is compared with what nghttp3 was told to send,
   and what its callbacks say with what was written here. Arguments: how many schedules each way (default: 3000),
   and their seed (default: 1). */
#include "endpoint.h"
#include "exchanges.h"
#include "peer.h"

static const exchange own_rows[] = {
    {"HEAD", NULL,
     {.lines = {{":method", "HEAD"}, {":scheme", "https"}, {":authority", "example.com"}, {":path", "/"}}},
     {.lines = {{":status", "200"}, {"content-length", "500"}}}},
    {"CONNECT for another protocol", NULL,
     {.lines = {{":method", "CONNECT"}, {":scheme", "https"}, {":protocol", "websocket"},
                {":authority", "example.com"}, {":path", "/chat"}},
      .data = {7, 300}},
     {.lines = {{":status", "200"}}, .data = {9, 1, 4096}}},
    {"no content", NULL,
     {.lines = {{":method", "DELETE"}, {":scheme", "https"}, {":authority", "example.com"}, {":path", "/a"}}},
     {.lines = {{":status", "204"}}}},
};

enum { OWN_ROWS = sizeof own_rows / sizeof own_rows[0], TO_US = 1, TO_THEM = 0 };

/* One connection. */
static struct {
  int we_serve;
  size_t many;
  exchange rows[EXCHANGED];
  int cancelled[EXCHANGED], answered[EXCHANGED], early[EXCHANGED];
  peer theirs;
  wt_connection ours;
  wt_stream states[STREAMS];
  stream written[STREAMS]; /* by us */
  int finished[STREAMS];
  transcript read[EXCHANGED]; /* by us */
  size_t sections[EXCHANGED];
  size_t came[2][STREAMS], consumed[STREAMS]; /* of each stream, to them and to us */
  int over[2][STREAMS];                       /* its end came, or it was cancelled */
  size_t settings, wrong; /* SETTINGS that came to us, and events that should not */
  uint64_t goaway;
} now;

static const message *ours_of(size_t i) { return now.we_serve ? &now.rows[i].response : &now.rows[i].request; }
static const message *theirs_of(size_t i) { return now.we_serve ? &now.rows[i].request : &now.rows[i].response; }

static uint32_t asked_of(const exchange *e) {
  const char *method = value_of(&e->request, ":method");
  if (strcmp(method, "HEAD") == 0) return WT_ASKED_HEAD;
  return strcmp(method, "CONNECT") == 0 ? WT_ASKED_CONNECT : WT_ASKED_OTHER;
}

/* ---- What we send ---- */

static void send_lines(stream *s, wt_sending *sending, const line *lines, int are_trailers) {
  static stream texts;
  wt_field fields[LINES];
  uint32_t why;
  size_t many = fields_of(lines, fields, &texts);
  if (many == 0) return;
  if (are_trailers) {
    APPEND(s, wt_sending_trailers(sending, fields, many, texts.bytes, texts.size, out, room, &used, &why));
  } else {
    APPEND(s, wt_sending_headers(sending, fields, many, texts.bytes, texts.size, out, room, &used, &why));
  }
}

/* Sends a message, whole, with reserved frames in between. */
static void send_own(stream *s, wt_sending *sending, const message *m) {
  size_t at = 0;
  uint32_t why;
  s->size = 0;
  send_lines(s, sending, m->info, 0);
  send_lines(s, sending, m->lines, 0);
  for (const size_t *size = m->data; *size > 0; size++) {
    write_reserved(s);
    APPEND(s, wt_sending_data(sending, *size, out, room, &used, &why));
    for (size_t end = at + *size; at < end; at++) {
      uint8_t byte = content_at(at);
      append(s, &byte, 1);
      MUST(wt_sending_sent(sending, 1, &why) == WT_OK);
    }
  }
  send_lines(s, sending, m->trailers, 1);
  write_reserved(s);
  MUST(wt_sending_finish(sending, &why) == WT_OK);
}

/* Writes our message on a stream, whole. A client's CONNECT with content does not wait for SETTINGS and the answer,
   as the calls that send would have it: it is written without them. */
static void write_ours(size_t i) {
  const exchange *e = &now.rows[i];
  wt_sending sending;
  uint32_t why;
  if (now.we_serve) {
    MUST(wt_sending_response(&now.ours, 4 * i, asked_of(e), &sending, &why) == WT_OK);
    send_own(&now.written[4 * i], &sending, ours_of(i));
  } else if (asked_of(e) == WT_ASKED_CONNECT) {
    write_message(&now.written[4 * i], ours_of(i), 0, NULL);
  } else {
    MUST(wt_sending_request(&now.ours, 4 * i, &sending, &why) == WT_OK);
    send_own(&now.written[4 * i], &sending, ours_of(i));
  }
  now.finished[4 * i] = 1;
  now.answered[i] = 1;
}

static void answer(size_t i) {
  write_ours(i);
  MUST(wt_stream_answer(&now.states[4 * i], (uint32_t)atoi(value_of(ours_of(i), ":status"))) == WT_OK);
}

/* ---- What comes to us ---- */

/* Whether a section is what it should be next. */
static int is_next(size_t i, const wt_event *e) {
  size_t first = now.rows[i].response.info[0].name != NULL; /* the final response is this section */
  if (now.we_serve) return e->detail == (now.sections[i] == 0 ? WT_HEADERS_REQUEST : WT_HEADERS_TRAILERS);
  if (now.sections[i] > first) return e->detail == WT_HEADERS_TRAILERS;
  if (now.sections[i] < first) return e->detail == WT_HEADERS_INTERIM && e->number == 103;
  return e->detail == WT_HEADERS_RESPONSE &&
         e->number == (uint64_t)atoi(value_of(&now.rows[i].response, ":status"));
}

static void tell_fields(size_t i, const wt_event *e, const wt_field *fields, const uint8_t *texts) {
  if (!is_next(i, e)) now.wrong++;
  now.sections[i]++;
  for (size_t n = 0; n < e->fields; n++) {
    tell_line(&now.read[i], texts + fields[n].name_offset, fields[n].name_length, texts + fields[n].value_offset,
              fields[n].value_length);
  }
  tell_section_end(&now.read[i]);
}

/* Whether a stream is for what is opened on it. */
static int is_opened(size_t id, uint32_t purpose) {
  static const uint32_t purposes[] = {WT_PURPOSE_CONTROL, WT_PURPOSE_ENCODER, WT_PURPOSE_DECODER};
  return purpose == (id % 4 == 0 ? (uint32_t)WT_PURPOSE_MESSAGE : purposes[id / 4]);
}

static void act(size_t id, const wt_event *e, const uint8_t *bytes, const wt_field *fields, const uint8_t *texts) {
  size_t i = id / 4;
  int is_message = id % 4 == 0;
  if (e->kind == WT_EVENT_OPENED) {
    now.wrong += !is_opened(id, e->detail);
  } else if (e->kind == WT_EVENT_SETTINGS) {
    now.settings++;
  } else if (e->kind == WT_EVENT_GOAWAY) {
    now.goaway = e->number;
  } else if (is_message && e->kind == WT_EVENT_HEADERS) {
    tell_fields(i, e, fields, texts);
    if (now.we_serve && now.early[i] && !now.answered[i]) answer(i);
  } else if (is_message && e->kind == WT_EVENT_DATA) {
    tell_content(&now.read[i], bytes + e->offset, e->length);
  } else if (is_message && e->kind == WT_EVENT_END) {
    tell_end(&now.read[i]);
    if (now.we_serve && !now.answered[i]) answer(i);
  } else if (e->kind != WT_EVENT_MORE && e->kind != WT_EVENT_SKIPPED && e->kind != WT_EVENT_WAITS) {
    now.wrong++;
  }
}

static void receive(size_t id, int fin) {
  static wt_field fields[LINES];
  static uint8_t texts[STREAM];
  const uint8_t *bytes = now.theirs.written[id].bytes;
  wt_event e;
  do {
    size_t at = now.consumed[id];
    MUST(wt_receive(&now.ours, &now.states[id], NULL, 0, NULL, 0, bytes + at, now.came[TO_US][id] - at,
                    (uint8_t)fin, &e, fields, LINES, texts, sizeof texts) == WT_OK);
    act(id, &e, bytes + at, fields, texts);
    now.consumed[id] += e.consumed;
    if (e.kind == WT_EVENT_WAITS) { /* CONNECT */
      MUST(e.detail == WT_WAITS_ANSWER && id % 4 == 0 && !now.answered[id / 4]);
      answer(id / 4);
    }
  } while (e.kind != WT_EVENT_MORE);
}

/* ---- What comes to them ---- */

static void give_them(size_t id, const uint8_t *bytes, size_t size, int fin) {
  size_t i = id / 4;
  uint64_t code = give(&now.theirs, (int64_t)id, bytes, size, fin);
  if (code != 0) now.wrong++;
  if (now.we_serve || id % 4 != 0 || now.answered[i]) return;
  if (!now.theirs.ended[i] && !(now.early[i] && now.theirs.sections[i] > 0)) return;
  now.answered[i] = 1;
  submit_message(&now.theirs, (int64_t)id, 1, theirs_of(i));
  take_written(&now.theirs);
}

/* ---- The schedule ---- */

static const stream *bytes_of(int way, size_t id) {
  return way == TO_US ? &now.theirs.written[id] : &now.written[id];
}

static int ends(int way, size_t id) { return way == TO_US ? now.theirs.finished[id] : now.finished[id]; }

/* Whether more of a stream can come. */
static int is_ready(int way, size_t id) {
  return !now.over[way][id] && (now.came[way][id] < bytes_of(way, id)->size || ends(way, id));
}

/* The next piece of a stream comes. */
static void deliver(int way, size_t id) {
  size_t at = now.came[way][id], left = bytes_of(way, id)->size - at;
  size_t size = left == 0 ? 0 : 1 + below(below(3) ? (left < 900 ? left : 900) : left < 3 ? left : 3);
  int fin = size == left && ends(way, id);
  now.came[way][id] += size;
  now.over[way][id] = fin;
  if (way == TO_US) {
    receive(id, fin);
  } else {
    give_them(id, bytes_of(way, id)->bytes + at, size, fin);
  }
}

/* The client cancels a request: both halves of its stream are over. */
static void cancel(size_t i) {
  size_t id = 4 * i;
  int was_over = now.over[TO_US][id];
  wt_event e;
  now.over[TO_US][id] = now.over[TO_THEM][id] = 1;
  now.cancelled[i] = 2;
  int answer = nghttp3_conn_close_stream(now.theirs.connection, (int64_t)id, WT_H3_REQUEST_CANCELLED);
  MUST(answer == 0 || answer == NGHTTP3_ERR_STREAM_NOT_FOUND);
  if (now.we_serve) {
    MUST(wt_stream_reset(&now.ours, &now.states[id], &e) == WT_OK);
    now.wrong += e.kind != (was_over ? (uint32_t)WT_EVENT_MORE : (uint32_t)WT_EVENT_RESET);
  } else {
    MUST(wt_stream_abandon(&now.ours, &now.states[id], &e) == WT_OK);
    now.wrong += e.kind != WT_EVENT_MORE;
  }
}

/* Lets pieces come until there are no more. */
static void run(void) {
  for (;;) {
    size_t ready[2 * STREAMS], count = 0;
    for (size_t n = 0; n < 2 * STREAMS; n++) {
      if (is_ready(n & 1, n >> 1)) ready[count++] = n;
    }
    if (count == 0) return;
    size_t n = ready[below(count)];
    deliver(n & 1, n >> 1);
    for (size_t i = 0; i < now.many; i++) {
      if (now.cancelled[i] == 1 && below(20) == 0) cancel(i);
    }
  }
}

/* ---- A connection ---- */

static exchange random_row(void) {
  if (below(4) == 0) return own_rows[below(OWN_ROWS)];
  if (below(2) == 0) return random_exchange();
  const exchange *e = &exchanges[below(EXCHANGES)];
  return e->url == NULL ? *e : own_rows[1]; /* (nghttp3 has no settings for sessions) */
}

static void write_own_streams(void) {
  const wt_setting settings[] = {{WT_SETTING_ENABLE_CONNECT_PROTOCOL, 1}, {0x21 + 0x1f * 7, 9}};
  size_t first = now.we_serve ? 3 : 2;
  wt_control control;
  uint32_t why;
  MUST(wt_control_new(&now.ours, &control) == WT_OK);
  APPEND(&now.written[first], wt_control_settings(&control, settings, 2, out, room, &used, &why));
  write_reserved(&now.written[first]);
  write_header(&now.written[first + 4], WT_STREAM_QPACK_ENCODER);
  write_header(&now.written[first + 8], WT_STREAM_QPACK_DECODER);
  write_header(&now.written[first + 12], reserved());
  append(&now.written[first + 12], content, sizeof content);
}

static void reset_now(int we_serve) {
  now.we_serve = we_serve;
  now.many = 1 + below(EXCHANGED);
  now.settings = now.wrong = 0;
  now.goaway = UINT64_MAX;
  for (size_t id = 0; id < STREAMS; id++) {
    now.written[id].size = now.consumed[id] = 0;
    now.finished[id] = 0;
    now.came[0][id] = now.came[1][id] = 0;
    now.over[0][id] = now.over[1][id] = 0;
  }
  for (size_t i = 0; i < EXCHANGED; i++) {
    now.read[i].size = now.sections[i] = 0;
    now.answered[i] = 0;
    now.early[i] = (int)below(2);
    now.cancelled[i] = below(8) == 0;
    now.rows[i] = random_row();
  }
}

static void begin(void) {
  const wt_endpoint endpoint = {now.we_serve ? WT_SIDE_SERVER : WT_SIDE_CLIENT, 0, 0, 1, 65536, 65536, 1200, {0}};
  nghttp3_settings settings;
  nghttp3_settings_default(&settings);
  settings.enable_connect_protocol = 1;
  open_peer(&now.theirs, !now.we_serve, &settings);
  MUST(wt_connection_new(WT_ABI, &endpoint, &now.ours) == WT_OK);
  write_own_streams();
  for (size_t id = 0; id < STREAMS; id++) {
    MUST(wt_stream_accept(&now.ours, id, &now.states[id]) == WT_OK);
  }
  for (size_t i = 0; i < now.many; i++) {
    if (now.we_serve) {
      submit_message(&now.theirs, (int64_t)(4 * i), 0, &now.rows[i].request);
    } else {
      write_ours(i);
      now.answered[i] = 0; /* by nghttp3 */
      MUST(wt_stream_of_request(&now.ours, asked_of(&now.rows[i]), &now.states[4 * i]) == WT_OK);
    }
  }
  take_written(&now.theirs);
}

/* nghttp3 ends the connection gracefully: its GOAWAY has the ID of the first request that it does not process, or
   of the first push. */
static void shut_down(const char *name) {
  uint64_t next = now.we_serve ? 0 : 4 * now.many;
  MUST(nghttp3_conn_submit_shutdown_notice(now.theirs.connection) == 0);
  MUST(nghttp3_conn_shutdown(now.theirs.connection) == 0);
  take_written(&now.theirs);
  run();
  count(now.goaway == next, name, "GOAWAY");
  if (now.we_serve) return;
  count(wt_connection_unprocessed(&now.ours, next) == 1 && wt_connection_unprocessed(&now.ours, next - 4) == 0,
        name, "requests that are not processed");
}

static int begins_with(const transcript *whole, const transcript *start) {
  return start->size <= whole->size && memcmp(whole->bytes, start->bytes, start->size) == 0;
}

/* Compares what was read with a message, or with its start if it was cancelled. */
static void compare(size_t i, const transcript *read, const message *m, const char *name, const char *what) {
  static transcript wanted;
  wanted.size = 0;
  tell_message(&wanted, m);
  if (now.cancelled[i] == 2) {
    count(begins_with(&wanted, read), name, what);
  } else {
    count_same(read, &wanted, name, what);
  }
}

static void play(int we_serve, uint64_t number) {
  char name[128];
  int whole = 1;
  seed(2 * number + (uint64_t)we_serve);
  reset_now(we_serve);
  begin();
  run();
  for (size_t i = 0; i < now.many; i++) {
    snprintf(name, sizeof name, "schedule %llu, %s, stream %zu: %s", (unsigned long long)number,
             we_serve ? "our server" : "our client", 4 * i, now.rows[i].name);
    compare(i, &now.read[i], theirs_of(i), name, "what we read");
    compare(i, &now.theirs.read[i], ours_of(i), name, "what nghttp3 read");
    whole &= now.cancelled[i] != 2;
  }
  if (whole) shut_down(name);
  count(now.settings == 1 && now.wrong == 0, name, "events");
  close_peer(&now.theirs);
}

int main(int argc, char **argv) {
  uint64_t times = argc > 1 ? strtoull(argv[1], NULL, 10) : 3000;
  uint64_t first = argc > 2 ? strtoull(argv[2], NULL, 10) : 1;
  for (uint64_t i = 0; i < times; i++) {
    play(1, first * 1000000 + i);
    play(0, first * 1000000 + i);
  }
  printf("%lu passed, %lu failed\n", passed, failed);
  return failed > 0;
}
