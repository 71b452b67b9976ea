/* Calls that allocate, with each allocation refused in turn: each returns WT_MEMORY until none is
   refused, and WT_OK then. */
#include "wtransport.h"
#include <stdio.h>
#include <stdlib.h>
#include <string.h>

extern void *__libc_malloc(size_t size);
extern void *__libc_realloc(void *old, size_t size);

static long left = -1; /* allocations that are granted; -1 for all */

static int granted(void) {
  if (left == 0) return 0;
  if (left > 0) left--;
  return 1;
}

void *malloc(size_t size);
void *realloc(void *old, size_t size);
void *malloc(size_t size) { return granted() ? __libc_malloc(size) : NULL; }
void *realloc(void *old, size_t size) { return granted() ? __libc_realloc(old, size) : NULL; }

static unsigned long passed, failed;

static int read_fields(void) {
  static const char section[] = "\x00\x00\x50\x8c\xf1\xe3\xc2\xe5\xf2\x3a\x6b\xa0\xab\x90\xf4\xff";
  wt_field fields[4];
  uint8_t texts[64];
  size_t count, used;
  uint64_t code;
  return wt_fields_read((const uint8_t *)section, sizeof section - 1, fields, 4, texts, sizeof texts,
                        &count, &used, &code);
}

static int write_fields(void) {
  static const wt_field field = {0, 6, 6, 19};
  uint8_t out[64];
  size_t used;
  return wt_fields_write(&field, 1, (const uint8_t *)"originhttps://example.com", 25, out, sizeof out, &used);
}

static int write_close(void) {
  uint8_t out[64];
  size_t used;
  return wt_close_write(1, (const uint8_t *)"bye", 3, out, sizeof out, &used);
}

static int read_settings(void) {
  wt_setting settings[4];
  size_t count;
  uint64_t code;
  return wt_settings_read((const uint8_t *)"\x33\x01", 2, settings, 4, &count, &code);
}

static int write_settings(void) {
  static const wt_setting settings[] = {{WT_SETTING_H3_DATAGRAM, 1}};
  uint8_t out[8];
  size_t used;
  return wt_settings_write(settings, 1, out, sizeof out, &used);
}

static int name_setting(void) {
  char out[64];
  size_t used;
  return wt_setting_name(WT_SETTING_H3_DATAGRAM, out, sizeof out, &used);
}

static int write_request(void) {
  static const char url[] = "https://example.com/chat";
  static const wt_field origin = {0, 6, 6, 19};
  uint8_t out[256];
  size_t used;
  return wt_request_write((const uint8_t *)url, sizeof url - 1, &origin, 1,
                          (const uint8_t *)"originhttps://example.com", 25, out, sizeof out, &used);
}

/* The HEADERS frame of a request; its payload has fewer than 64 bytes. */
static const uint8_t *request_frame(size_t *size) {
  static uint8_t frame[256];
  static size_t used = 0;
  if (used == 0) {
    long k = left;
    left = -1;
    wt_request_write((const uint8_t *)"https://example.com/chat", 24, NULL, 0, NULL, 0, frame,
                     sizeof frame, &used);
    left = k;
  }
  *size = used;
  return frame;
}

static int read_request(void) {
  size_t size, authority, used;
  const uint8_t *frame = request_frame(&size);
  uint8_t out[64];
  uint64_t code;
  return wt_request_read(frame + 2, size - 2, out, sizeof out, &authority, &used, &code);
}

static int find_fault(void) {
  size_t size;
  const uint8_t *frame = request_frame(&size);
  int fault;
  uint64_t code;
  return wt_request_check(frame + 2, size - 2, &fault, &code);
}

static int write_response(void) {
  static const wt_field origin = {0, 6, 6, 19};
  uint8_t out[64];
  size_t used;
  return wt_response_write(200, &origin, 1, (const uint8_t *)"originhttps://example.com", 25, out,
                           sizeof out, &used);
}

static int read_response(void) {
  uint16_t status;
  uint64_t code;
  return wt_response_read((const uint8_t *)"\x00\x00\xd9", 3, &status, &code);
}

/* A session's request, and the rest of a capsule whose first bytes are held: they change nothing
   until they have memory. */
static int receive(wt_stream *stream, wt_connection *c, uint8_t *held, const uint8_t *bytes,
                   size_t size) {
  wt_field fields[8];
  uint8_t out[128];
  wt_event event;
  return wt_receive(c, stream, held, 16, NULL, 0, bytes, size, 0, &event, fields, 8, out,
                    sizeof out);
}

static int receive_request(void) {
  static const wt_endpoint server = {WT_SIDE_SERVER, 0, 0, 1, 4096, 4096, 100, {0, 0, 0, 0, 0}};
  wt_connection c;
  wt_stream stream;
  uint8_t held[16];
  size_t size;
  const uint8_t *frame = request_frame(&size);
  long k = left;
  int answer;
  left = -1;
  if (wt_connection_new(WT_ABI, &server, &c) != WT_OK || wt_stream_accept(&c, 0, &stream) != WT_OK)
    return WT_INVALID;
  if (receive(&stream, &c, held, frame, size) != WT_OK) return WT_INVALID;
  left = k;
  answer = receive(&stream, &c, held, frame, size);
  left = -1;
  if (answer == WT_MEMORY && receive(&stream, &c, held, frame, size) != WT_OK) return WT_INVALID;
  return answer;
}

static int receive_capsule(void) {
  static const wt_endpoint client = {WT_SIDE_CLIENT, 1, 1, 0, 4096, 4096, 100, {0, 0, 0, 0, 0}};
  wt_connection c;
  wt_stream stream;
  uint8_t held[16];
  long k = left;
  int answer;
  left = -1;
  if (wt_connection_new(WT_ABI, &client, &c) != WT_OK) return WT_INVALID;
  if (wt_stream_of_request(&c, WT_ASKED_SESSION, &stream) != WT_OK) return WT_INVALID;
  if (receive(&stream, &c, held, (const uint8_t *)"\x01\x03\x00\x00\xd9", 5) != WT_OK)
    return WT_INVALID;
  if (receive(&stream, &c, held,
              (const uint8_t *)"\x00\x05\x00\x03"
                               "ab",
              6) != WT_OK)
    return WT_INVALID;
  left = k;
  answer = receive(&stream, &c, held, (const uint8_t *)"c", 1);
  left = -1;
  if (answer == WT_MEMORY && receive(&stream, &c, held, (const uint8_t *)"c", 1) != WT_OK)
    return WT_INVALID;
  return answer;
}

/* The sending side of a response, and whether a call that was refused memory left it as it was. */
static int begin_response(wt_sending *sending) {
  static const wt_endpoint server = {WT_SIDE_SERVER, 0, 0, 1, 4096, 4096, 100, {0, 0, 0, 0, 0}};
  wt_connection c;
  uint32_t why;
  return wt_connection_new(WT_ABI, &server, &c) == WT_OK &&
         wt_sending_response(&c, 0, WT_ASKED_SESSION, sending, &why) == WT_OK;
}

static int send_headers(void) {
  static const wt_field status = {0, 7, 7, 3};
  wt_sending sending, same;
  uint8_t out[64];
  size_t used;
  uint32_t why;
  int answer;
  if (!begin_response(&sending)) return WT_INVALID;
  same = sending;
  answer = wt_sending_headers(&sending, &status, 1, (const uint8_t *)":status200", 10, out,
                              sizeof out, &used, &why);
  if (answer == WT_MEMORY && memcmp(&sending, &same, sizeof same)) return WT_INVALID;
  return answer;
}

static int send_trailers(void) {
  static const wt_field status = {0, 7, 7, 3}, field = {0, 5, 5, 1};
  wt_sending sending;
  uint8_t out[64];
  size_t used;
  uint32_t why;
  long k = left;
  if (!begin_response(&sending)) return WT_INVALID;
  left = -1;
  if (wt_sending_headers(&sending, &status, 1, (const uint8_t *)":status404", 10, out, sizeof out,
                         &used, &why) != WT_OK)
    return WT_INVALID;
  left = k;
  return wt_sending_trailers(&sending, &field, 1, (const uint8_t *)"x-sum1", 6, out, sizeof out,
                             &used, &why);
}

static int send_close(void) {
  static const wt_field status = {0, 7, 7, 3};
  wt_sending sending, same;
  uint8_t out[64];
  size_t used;
  uint32_t why;
  long k = left;
  int answer;
  if (!begin_response(&sending)) return WT_INVALID;
  left = -1;
  if (wt_sending_headers(&sending, &status, 1, (const uint8_t *)":status200", 10, out, sizeof out,
                         &used, &why) != WT_OK)
    return WT_INVALID;
  left = k;
  same = sending;
  answer = wt_sending_close(&sending, 1, (const uint8_t *)"bye", 3, out, sizeof out, &used, &why);
  if (answer == WT_MEMORY && memcmp(&sending, &same, sizeof same)) return WT_INVALID;
  return answer;
}

static int send_settings(void) {
  static const wt_endpoint server = {WT_SIDE_SERVER, 0, 0, 1, 4096, 4096, 100, {0, 0, 0, 0, 0}};
  static const wt_setting settings[] = {{WT_SETTING_H3_DATAGRAM, 1}};
  wt_connection c;
  wt_control control, same;
  uint8_t out[16];
  size_t used;
  uint32_t why;
  int answer;
  if (wt_connection_new(WT_ABI, &server, &c) != WT_OK || wt_control_new(&c, &control) != WT_OK)
    return WT_INVALID;
  same = control;
  answer = wt_control_settings(&control, settings, 1, out, sizeof out, &used, &why);
  if (answer == WT_MEMORY && memcmp(&control, &same, sizeof same)) return WT_INVALID;
  return answer;
}

/* A request whose first bytes are held: after WT_MEMORY they still are, and no others were taken. */
static int receive_pushed(void) {
  static const wt_endpoint server = {WT_SIDE_SERVER, 0, 0, 1, 4096, 4096, 100, {0, 0, 0, 0, 0}};
  static wt_hold none;
  wt_hold hold = none;
  wt_connection c;
  wt_stream stream;
  wt_event event;
  wt_field fields[8];
  uint8_t room[256], out[128];
  size_t size, at = 3;
  const uint8_t *frame = request_frame(&size);
  long k = left;
  int answer, turn;
  left = -1;
  if (wt_connection_new(WT_ABI, &server, &c) != WT_OK || wt_stream_accept(&c, 0, &stream) != WT_OK)
    return WT_INVALID;
  for (turn = 0; turn < 2; turn++)
    if (wt_receive_pushed(&c, &stream, NULL, 0, NULL, 0, &hold, room, sizeof room, frame, at, 0,
                          &event, fields, 8, out, sizeof out) != WT_OK)
      return WT_INVALID;
  left = k;
  answer = wt_receive_pushed(&c, &stream, NULL, 0, NULL, 0, &hold, room, sizeof room, frame + at,
                             size - at, 1, &event, fields, 8, out, sizeof out);
  left = -1;
  if (answer != WT_MEMORY) return answer;
  if (hold.taken != 0 || hold.fin != 0) return WT_INVALID;
  if (hold.end - hold.start != at || memcmp(room + hold.start, frame, at) != 0) return WT_INVALID;
  if (wt_receive_pushed(&c, &stream, NULL, 0, NULL, 0, &hold, room, sizeof room, frame + at,
                        size - at, 1, &event, fields, 8, out, sizeof out) != WT_OK)
    return WT_INVALID;
  return event.kind == WT_EVENT_HEADERS && hold.fin && event.fields == 5 ? WT_MEMORY : WT_INVALID;
}

/* A server whose table has the entries of RFC 9204, appendix B.2, and a request that refers to them. */
enum { TABLE_SIZE = 1204 };
static const char tabled_request[] = "\x01\x06\x03\x00\xd1\xd7\x81\x80";

typedef struct tabled {
  wt_connection connection;
  wt_stream encoder, stream;
  uint8_t table[TABLE_SIZE];
  wt_event event;
  wt_field fields[8];
  uint8_t out[128];
} tabled;

static int receive_tabled(tabled *t, wt_stream *stream, const char *bytes, size_t size) {
  return wt_receive(&t->connection, stream, NULL, 0, t->table, TABLE_SIZE, (const uint8_t *)bytes,
                    size, 0, &t->event, t->fields, 8, t->out, sizeof t->out);
}

static int begin_tabled(tabled *t) {
  static const wt_endpoint server = {WT_SIDE_SERVER, 0, 0, 1, 4096, 4096, 100, {0, 0, 0, 0, 0}};
  static const char inserts[] = "\x3f\xbd\x01\xc0\x0fwww.example.com\xc1\x0c/sample/path";
  memset(t, 0, sizeof *t);
  return wt_connection_new(WT_ABI, &server, &t->connection) == WT_OK &&
         wt_table_new(220, t->table, TABLE_SIZE) == WT_OK &&
         wt_stream_accept(&t->connection, 2, &t->encoder) == WT_OK &&
         wt_stream_accept(&t->connection, 4, &t->stream) == WT_OK &&
         receive_tabled(t, &t->encoder, "\x02", 1) == WT_OK &&
         receive_tabled(t, &t->encoder, inserts, sizeof inserts - 1) == WT_OK &&
         t->event.kind == WT_EVENT_INSERTED && t->event.number == 2 &&
         receive_tabled(t, &t->stream, tabled_request, 8) == WT_OK &&
         t->event.kind == WT_EVENT_OPENED;
}

/* Makes a call with allocations refused, after which nothing but its event has changed. */
static int tabled_call(int (*call)(tabled *t), int is_read) {
  static tabled t, same;
  long k = left;
  int answer;
  left = -1;
  if (!begin_tabled(&t)) return WT_INVALID;
  if (is_read && receive_tabled(&t, &t.stream, tabled_request, 8) != WT_OK) return WT_INVALID;
  same = t;
  left = k;
  answer = call(&t);
  left = -1;
  if (answer == WT_MEMORY && memcmp(&t, &same, sizeof t) != 0) return WT_INVALID;
  return answer;
}

static int call_receive(tabled *t) { return receive_tabled(t, &t->stream, tabled_request, 8); }
static int call_insert(tabled *t) { return receive_tabled(t, &t->encoder, "\x02", 1); }

static int call_acknowledge(tabled *t) {
  size_t used;
  return wt_table_acknowledge(t->table, TABLE_SIZE, 4, t->out, sizeof t->out, &used);
}

static int call_increment(tabled *t) {
  size_t used;
  return wt_table_increment(t->table, TABLE_SIZE, t->out, sizeof t->out, &used);
}

static int call_cancel(tabled *t) {
  size_t used;
  return wt_table_cancel(t->table, TABLE_SIZE, 4, t->out, sizeof t->out, &used);
}

static int call_count(tabled *t) {
  uint64_t count;
  return wt_table_insert_count(t->table, TABLE_SIZE, &count);
}

static int tabled_receive(void) { return tabled_call(call_receive, 0); }
static int tabled_insert(void) { return tabled_call(call_insert, 0); }
static int tabled_acknowledge(void) { return tabled_call(call_acknowledge, 1); }
static int tabled_increment(void) { return tabled_call(call_increment, 0); }
static int tabled_cancel(void) { return tabled_call(call_cancel, 0); }
static int tabled_count(void) { return tabled_call(call_count, 0); }

static int make_table(void) {
  uint8_t table[TABLE_SIZE];
  return wt_table_new(220, table, TABLE_SIZE);
}

/* A client whose encoder has an entry and a section that is not acknowledged. */
enum { ENCODER_SIZE = WT_ENCODER_SIZE(220, 4) };

typedef struct encoding {
  wt_sending sending;
  uint8_t encoder[ENCODER_SIZE];
  uint8_t instructions[64], out[64];
  size_t instructions_used, used;
  uint32_t why;
  uint64_t number;
} encoding;

static const wt_policy encoder_policy = {1024, 0, 4};
static const char get_texts[] = ":methodGET:schemehttps:authoritywww.example.com:path/x-sum1";
static const wt_field get_fields[] = {{0, 7, 7, 3}, {10, 7, 17, 5}, {22, 10, 32, 15}, {47, 5, 52, 1}};
static const wt_field sum_field = {53, 5, 58, 1};

static int call_headers_with(encoding *e) {
  return wt_sending_headers_with(&e->sending, e->encoder, ENCODER_SIZE, get_fields, 4,
                                 (const uint8_t *)get_texts, sizeof get_texts - 1, e->instructions,
                                 64, &e->instructions_used, e->out, 64, &e->used, &e->why);
}

static int call_trailers_with(encoding *e) {
  return wt_sending_trailers_with(&e->sending, e->encoder, ENCODER_SIZE, &sum_field, 1,
                                  (const uint8_t *)get_texts, sizeof get_texts - 1, e->instructions,
                                  64, &e->instructions_used, e->out, 64, &e->used, &e->why);
}

static int call_encoder_new(encoding *e) {
  return wt_encoder_new(&encoder_policy, e->encoder, ENCODER_SIZE);
}

static int call_limits(encoding *e) {
  return wt_encoder_limits(e->encoder, ENCODER_SIZE, 220, 1, e->out, 64, &e->used);
}

static int call_encoder_receive(encoding *e) {
  return wt_encoder_receive(e->encoder, ENCODER_SIZE, (const uint8_t *)"\x80", 1, &e->number);
}

static int call_unacknowledged(encoding *e) {
  return wt_encoder_unacknowledged(e->encoder, ENCODER_SIZE, &e->number);
}

static int call_take_back(encoding *e) { return wt_encoder_take_back(e->encoder, ENCODER_SIZE, 0); }

/* Makes a call with allocations refused, after which nothing has changed, after so many of the calls that
   come before it. */
static int encoding_call(int (*call)(encoding *e), int calls) {
  static const wt_endpoint client = {WT_SIDE_CLIENT, 0, 0, 0, 4096, 4096, 100, {0, 0, 0, 0, 0}};
  static int (*const before[])(encoding *e) = {call_encoder_new, call_limits, call_headers_with};
  static encoding e, same;
  wt_connection c;
  long k = left;
  int answer, i;
  left = -1;
  memset(&e, 0, sizeof e);
  if (wt_connection_new(WT_ABI, &client, &c) != WT_OK) return WT_INVALID;
  if (wt_sending_request(&c, 0, &e.sending, &e.why) != WT_OK) return WT_INVALID;
  for (i = 0; i < calls; i++)
    if (before[i](&e) != WT_OK) return WT_INVALID;
  same = e;
  left = k;
  answer = call(&e);
  left = -1;
  if (answer == WT_MEMORY && memcmp(&e, &same, sizeof e) != 0) return WT_INVALID;
  return answer;
}

static int make_encoder(void) { return encoding_call(call_encoder_new, 0); }
static int limit_encoder(void) { return encoding_call(call_limits, 1); }
static int encode_headers(void) { return encoding_call(call_headers_with, 2); }
static int encode_trailers(void) { return encoding_call(call_trailers_with, 3); }
static int encoder_receive(void) { return encoding_call(call_encoder_receive, 3); }
static int encoder_count(void) { return encoding_call(call_unacknowledged, 3); }
static int encoder_take_back(void) { return encoding_call(call_take_back, 3); }

static void refuse(const char *name, int (*call)(void)) {
  for (long k = 0; k < 200; k++) {
    int answer;
    left = k;
    answer = call();
    left = -1;
    if (answer == WT_MEMORY) {
      passed++;
      continue;
    }
    if (answer == WT_OK && k > 0) {
      passed++;
    } else {
      failed++;
      printf("%s: %d where allocation %ld is refused\n", name, answer, k + 1);
    }
    return;
  }
  failed++;
  printf("%s allocates without an end\n", name);
}

int main(void) {
  refuse("wt_fields_read", read_fields);
  refuse("wt_fields_write", write_fields);
  refuse("wt_settings_read", read_settings);
  refuse("wt_settings_write", write_settings);
  refuse("wt_setting_name", name_setting);
  refuse("wt_request_write", write_request);
  refuse("wt_request_read", read_request);
  refuse("wt_request_check", find_fault);
  refuse("wt_response_write", write_response);
  refuse("wt_response_read", read_response);
  refuse("wt_close_write", write_close);
  refuse("wt_receive of a request", receive_request);
  refuse("wt_receive of a capsule", receive_capsule);
  refuse("wt_receive_pushed", receive_pushed);
  refuse("wt_table_new", make_table);
  refuse("wt_table_insert_count", tabled_count);
  refuse("wt_receive with a table", tabled_receive);
  refuse("wt_receive of instructions", tabled_insert);
  refuse("wt_table_acknowledge", tabled_acknowledge);
  refuse("wt_table_increment", tabled_increment);
  refuse("wt_table_cancel", tabled_cancel);
  refuse("wt_encoder_new", make_encoder);
  refuse("wt_encoder_limits", limit_encoder);
  refuse("wt_encoder_receive", encoder_receive);
  refuse("wt_encoder_unacknowledged", encoder_count);
  refuse("wt_encoder_take_back", encoder_take_back);
  refuse("wt_sending_headers_with", encode_headers);
  refuse("wt_sending_trailers_with", encode_trailers);
  refuse("wt_sending_headers", send_headers);
  refuse("wt_sending_trailers", send_trailers);
  refuse("wt_sending_close", send_close);
  refuse("wt_control_settings", send_settings);
  printf("%lu passed, %lu failed\n", passed, failed);
  return failed > 0;
}
