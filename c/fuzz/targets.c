/* Fuzz targets, one for each call that reads: TARGET names it. Each input is in memory of its own
   size, and what a call reports is checked against the sizes that it was given, and against what the
   call that writes the same makes of it. The library is not instrumented, so what counts as new for
   the fuzzer is what the calls report (`note`). */
#include <stdlib.h>
#include <string.h>
#include <wtransport.h>

#define MUST(x) do { if (!(x)) abort(); } while (0)

/* What was reported so far, as counters of libFuzzer. */
__attribute__((section("__libfuzzer_extra_counters"))) static uint8_t reported[1 << 14];

/* Notes that a call reported a number of some sort. */
static void note(uint64_t sort, uint64_t number) {
  uint64_t mixed = (sort + 1) * 0x9e3779b97f4a7c15u ^ (number + 1) * 0xc2b2ae3d27d4eb4fu;
  reported[(mixed ^ mixed >> 29) % sizeof reported] = 1;
}

static void note_bytes(uint64_t sort, const uint8_t *bytes, size_t size) {
  uint64_t sum = 14695981039346656037u;
  for (size_t i = 0; i < size; i++) sum = (sum ^ bytes[i]) * 1099511628211u;
  note(sort, sum);
}

static void varint(const uint8_t *d, size_t n) {
  uint64_t value;
  size_t consumed, used;
  uint8_t out[8];
  int answer = wt_varint_read(d, n, &value, &consumed);
  note((uint64_t)answer, consumed);
  if (answer == WT_OK) {
    MUST(consumed <= n && wt_varint_write(value, out, 8, &used) == WT_OK && used <= consumed);
  }
}

static void stream_header(const uint8_t *d, size_t n) {
  wt_stream_header header;
  size_t consumed, used;
  uint64_t code;
  uint8_t out[16];
  int answer = wt_stream_header_read(d, n, &consumed, &header, &code);
  note((uint64_t)answer, answer == WT_OK ? header.type : answer == WT_ERROR ? code : 0);
  if (answer == WT_OK) {
    MUST(consumed <= n && wt_stream_header_write(&header, out, 16, &used) == WT_OK && used <= consumed);
  }
}

static void datagram(const uint8_t *d, size_t n) {
  uint64_t session, code;
  size_t offset, used;
  uint8_t out[8];
  int answer = wt_datagram_read(d, n, &session, &offset, &code);
  note((uint64_t)answer, answer == WT_OK ? offset : code);
  if (answer == WT_OK) {
    MUST(offset <= n && wt_datagram_write_head(session, out, 8, &used) == WT_OK && used <= offset);
  }
}

/* all at once, and cut where the first byte says: the same frames, and the same fault */
static uint64_t walk(const uint8_t *d, size_t n, uint8_t kind, size_t step) {
  wt_reader reader;
  uint64_t sum = 0, code;
  size_t at = 0, have = 0, consumed;
  wt_frame frame;
  MUST(wt_reader_new(kind, &reader) == WT_OK);
  for (;;) {
    uint8_t *held = malloc(have > 0 ? have : 1);
    int answer;
    if (have > 0) memcpy(held, d + at, have);
    answer = wt_read_frame(&reader, held, have, &consumed, &frame, &code);
    MUST(answer == WT_ERROR || consumed <= have);
    note((uint64_t)answer, answer == WT_OK ? frame.type : answer == WT_ERROR ? code : reader.skip_remaining > 0);
    if (answer == WT_OK) {
      MUST(frame.offset + frame.length == consumed && frame.length <= WT_MAX_FRAME_PAYLOAD);
      sum = sum * 31 + frame.type + frame.session + frame.length + (frame.length ? held[frame.offset] : 0);
    }
    free(held);
    if (answer == WT_ERROR) return sum * 31 + code;
    at += consumed;
    have -= consumed;
    if (answer == WT_MORE) {
      MUST(have <= WT_MAX_FRAME_REST);
      if (at + have == n) return sum * 31 + (uint64_t)wt_read_end(&reader, d + at, have, &code);
      have += step < n - at - have ? step : n - at - have;
    }
  }
}

static void frames(const uint8_t *d, size_t n) {
  if (n < 2) return;
  MUST(walk(d + 2, n - 2, d[0] & 3, n) == walk(d + 2, n - 2, d[0] & 3, (size_t)d[1] + 1));
}

/* Fields that were read are written, if they are UTF-8, to a section with the same fields. */
static void write_again(const wt_field *some, size_t count, const uint8_t *texts, size_t used) {
  static uint8_t section[8192], again_texts[4096];
  wt_field again[64];
  size_t size, again_count, again_used;
  uint64_t code;
  int answer = wt_fields_write(some, count, texts, used, section, sizeof section, &size);
  note(100, (uint64_t)answer);
  MUST(answer == WT_OK || answer == WT_INVALID || answer == WT_BUFFER_TOO_SMALL);
  if (answer != WT_OK) return;
  MUST(wt_fields_read(section, size, again, 64, again_texts, sizeof again_texts, &again_count, &again_used,
                      &code) == WT_OK);
  MUST(again_count == count && again_used == used && memcmp(again_texts, texts, used) == 0);
  for (size_t i = 0; i < count; i++) {
    MUST(again[i].name_length == some[i].name_length && again[i].value_length == some[i].value_length);
  }
}

/* as walk, for capsules */
static uint64_t walk_capsules(const uint8_t *d, size_t n, size_t step) {
  wt_capsule_reader reader = {0};
  uint64_t sum = 0, code = 0;
  size_t at = 0, have = 0, consumed;
  wt_capsule capsule;
  for (;;) {
    uint8_t *held = malloc(have > 0 ? have : 1);
    int answer;
    if (have > 0) memcpy(held, d + at, have);
    answer = wt_capsule_read(&reader, held, have, &consumed, &capsule, &code);
    MUST(consumed <= have);
    note((uint64_t)answer, answer == WT_OK ? capsule.length : reader.skip_remaining > 0);
    if (answer == WT_OK) {
      MUST(capsule.offset + capsule.length == consumed && capsule.length <= WT_MAX_CAPSULE_VALUE);
      sum = sum * 31 + capsule.type + capsule.length + (capsule.length ? held[capsule.offset] : 0);
    }
    free(held);
    if (answer == WT_ERROR) return sum * 31 + code;
    at += consumed;
    have -= consumed;
    if (answer == WT_MORE) {
      MUST(have <= WT_MAX_CAPSULE_REST);
      if (at + have == n) return sum * 31 + (uint64_t)wt_capsule_end(&reader, d + at, have, &code);
      have += step < n - at - have ? step : n - at - have;
    }
  }
}

static void capsules(const uint8_t *d, size_t n) {
  if (n < 1) return;
  MUST(walk_capsules(d + 1, n - 1, n) == walk_capsules(d + 1, n - 1, (size_t)d[0] + 1));
}

/* A request has a fault exactly where it is refused, and the fault has a name. */
static void request_fault(const uint8_t *d, size_t n) {
  uint8_t out[4096];
  char name[64];
  size_t authority, used, size;
  int fault = -1;
  uint64_t code, other;
  int answer = wt_request_check(d, n, &fault, &code);
  int read = wt_request_read(d, n, out, sizeof out, &authority, &used, &other);
  note((uint64_t)answer, (uint64_t)fault);
  if (answer == WT_ERROR) {
    MUST(fault == -1 && code == WT_QPACK_DECOMPRESSION_FAILED && read == WT_ERROR && other == WT_QPACK_DECOMPRESSION_FAILED);
  } else if (fault == WT_REQUEST_OK) {
    MUST(read == WT_OK || read == WT_BUFFER_TOO_SMALL);
  } else {
    MUST(answer == WT_OK && read == WT_ERROR && other == WT_H3_MESSAGE_ERROR);
    MUST(wt_request_fault_name(fault, name, sizeof name, &size) == WT_OK && size > 0);
  }
}

static void fields(const uint8_t *d, size_t n) {
  wt_field some[64];
  uint8_t texts[4096];
  size_t count = 0, used = 0;
  uint64_t code;
  int answer = wt_fields_read(d, n, some, 64, texts, sizeof texts, &count, &used, &code);
  note((uint64_t)answer, count);
  if (answer == WT_OK) {
    MUST(count <= 64 && used <= sizeof texts);
    for (size_t i = 0; i < count; i++) {
      MUST(some[i].name_offset + some[i].name_length <= used);
      MUST(some[i].value_offset + some[i].value_length <= used);
      note_bytes(101, texts + some[i].name_offset, some[i].name_length);
      note(102, some[i].value_length);
    }
    write_again(some, count, texts, used);
  }
  MUST(answer != WT_BUFFER_TOO_SMALL || count > 64 || used > sizeof texts);
}

static void settings(const uint8_t *d, size_t n) {
  wt_setting some[64];
  size_t count;
  uint64_t code;
  uint8_t out[1024];
  size_t used;
  int answer = wt_settings_read(d, n, some, 64, &count, &code);
  note((uint64_t)answer, answer == WT_ERROR ? code : 0);
  if (answer == WT_OK) {
    for (size_t i = 0; i < count; i++) note(100, some[i].id);
    MUST(count <= 64 && wt_settings_write(some, count, out, sizeof out, &used) == WT_OK && used <= n);
  }
}

static void request(const uint8_t *d, size_t n) {
  uint8_t out[4096];
  size_t authority, used;
  uint64_t code;
  int answer = wt_request_read(d, n, out, sizeof out, &authority, &used, &code);
  note((uint64_t)answer, answer == WT_OK ? used : answer == WT_ERROR ? code : 0);
  if (answer == WT_OK) MUST(authority <= used && used <= sizeof out);
}

static void response(const uint8_t *d, size_t n) {
  uint16_t status;
  uint64_t code;
  int answer = wt_response_read(d, n, &status, &code);
  note((uint64_t)answer, answer == WT_OK ? status : code);
  if (answer == WT_OK) MUST(status >= 100 && status <= 599);
}

static void url(const uint8_t *d, size_t n) {
  uint8_t out[4096];
  size_t used, authority, both;
  uint64_t code;
  uint8_t parts[4096];
  int answer = wt_request_write(d, n, NULL, 0, NULL, 0, out, sizeof out, &used);
  note((uint64_t)answer, answer == WT_OK ? used : 0);
  if (answer == WT_OK && used > 67) {
    /* the length of a payload of 64 to 16383 bytes has two bytes */
    answer = wt_request_read(out + 3, used - 3, parts, sizeof parts, &authority, &both, &code);
    MUST(answer == WT_OK || (answer == WT_BUFFER_TOO_SMALL && both > sizeof parts));
  }
}

static void close_value(const uint8_t *d, size_t n) {
  uint32_t reset;
  uint64_t code;
  uint8_t out[2048];
  size_t used;
  int answer = wt_close_read(d, n, &reset, &code);
  note((uint64_t)answer, n < 5 ? n : 5 + (n > WT_MAX_CAPSULE_VALUE));
  if (answer == WT_OK) {
    MUST(n >= 4 && wt_close_write(reset, d + 4, n - 4, out, sizeof out, &used) == WT_OK);
    MUST(used > n && memcmp(out + used - n, d, n) == 0);
  }
}

/* Numbers that have names: of settings, of codes, and of applications' codes. */
static void names(const uint8_t *d, size_t n) {
  uint64_t number = 0;
  uint32_t application;
  char out[64], again[64];
  size_t size, again_size;
  int answer;
  if (n > 8) return;
  for (size_t i = 0; i < n; i++) number = number << 8 | d[i];
  answer = wt_setting_name(number, out, sizeof out, &size);
  note((uint64_t)answer, answer == WT_OK ? number : 0);
  MUST(answer == WT_INVALID || (answer == WT_OK && wt_setting_name(number, again, size, &again_size) == WT_OK &&
                                again_size == size && memcmp(out, again, size) == 0));
  answer = wt_code_name(number, out, sizeof out, &size);
  note(100, answer == WT_OK ? number : 0);
  MUST(answer == WT_INVALID || (answer == WT_OK && size > 0));
  MUST((wt_code_scope(number) == WT_INVALID) == (answer == WT_INVALID));
  answer = wt_application_code_from_http3(number, &application);
  note(200, (uint64_t)answer);
  MUST(answer == WT_INVALID || wt_application_code_to_http3(application) == number);
}

/* One stream of a connection: the sum of what its events say, in pieces of `step` bytes, the last one
   with its end. Pieces of content count byte by byte. */
typedef struct played {
  uint64_t sum, content, events;
} played;

static void count_event(played *p, const wt_event *e, const uint8_t *bytes, const uint8_t *out) {
  MUST(e->kind <= WT_EVENT_END && e->reserved[0] == 0);
  if (e->kind == WT_EVENT_DATA || e->kind == WT_EVENT_STREAM_DATA) {
    for (size_t i = 0; i < e->length; i++) p->content = p->content * 31 + bytes[e->offset + i];
    return;
  }
  if (e->kind == WT_EVENT_MORE || e->kind == WT_EVENT_SKIPPED || e->kind == WT_EVENT_MALFORMED) return;
  p->events++;
  p->sum = ((p->sum * 31 + e->kind) * 31 + e->number) * 31 + e->used;
  for (size_t i = 0; i < e->used; i++) p->sum = p->sum * 31 + out[i];
  note(300 + e->kind, e->number);
}

/* What a stream is read with. */
typedef struct player {
  wt_connection connection;
  wt_stream stream;
  uint8_t held[1100], out[4096];
  wt_field fields[64];
  wt_event event;
} player;

static void begin(player *r, uint8_t side, uint64_t id) {
  static const wt_endpoint both = {0, 1, 1, 1, 4096, 2048, 100, {0, 0, 0, 0, 0}};
  wt_endpoint endpoint = both;
  endpoint.side = side;
  MUST(wt_connection_new(WT_ABI, &endpoint, &r->connection) == WT_OK);
  if (side == WT_SIDE_CLIENT)
    MUST(wt_stream_of_request(&r->connection, (uint32_t)id & 3, &r->stream) == WT_OK);
  else
    MUST(wt_stream_accept(&r->connection, id, &r->stream) == WT_OK);
}

/* What follows an event: whether the stream goes on with the bytes that came. */
enum { NEXT, FULL, STOP };
static int follow(player *r) {
  wt_event *e = &r->event;
  if (e->kind == WT_EVENT_WAITS && e->detail == WT_WAITS_ANSWER) {
    MUST(wt_stream_answer(&r->stream, 200) == WT_OK);
    return NEXT;
  }
  if (e->kind == WT_EVENT_JOINS)
    MUST(wt_stream_join(&r->connection, &r->stream, WT_KNOWN_OPEN, e) == WT_OK);
  if (e->kind == WT_EVENT_WAITS) return STOP;
  return e->kind == WT_EVENT_MORE ? FULL : NEXT;
}

static played play(const uint8_t *d, size_t n, uint8_t side, uint64_t id, size_t step) {
  player r;
  played p = {0, 0, 0};
  size_t at = 0, end = step < n ? step : n;
  begin(&r, side, id);
  for (size_t calls = 0;; calls++) {
    wt_event *e = &r.event;
    int answer = wt_receive(&r.connection, &r.stream, r.held, sizeof r.held, NULL, 0, d + at, end - at,
                            end == n, e, r.fields, 64, r.out, sizeof r.out);
    MUST(answer == WT_OK && e->consumed <= end - at && e->held <= sizeof r.held && calls < 8 * n + 64);
    count_event(&p, e, d + at, r.out);
    at += e->consumed;
    switch (follow(&r)) {
      case NEXT:
        continue;
      case FULL:
        if (end < n) break;
        return p;
      default:
        return p;
    }
    end = n - end < step ? n : end + step;
  }
}

/* The same of chunks that come once: what a call leaves is held, in an array with room for a frame. */
static played push(const uint8_t *d, size_t n, uint8_t side, uint64_t id, size_t step) {
  static const wt_hold none;
  static uint8_t room[4112];
  player r;
  played p = {0, 0, 0};
  wt_hold hold = none;
  size_t at = 0, end = step < n ? step : n;
  begin(&r, side, id);
  for (size_t calls = 0;; calls++) {
    int answer = wt_receive_pushed(&r.connection, &r.stream, r.held, sizeof r.held, NULL, 0, &hold, room,
                                   sizeof room, d + at, end - at, end == n, &r.event, r.fields, 64, r.out,
                                   sizeof r.out);
    MUST(answer == WT_OK && hold.taken <= end - at && hold.end <= sizeof room && calls < 8 * n + 64);
    count_event(&p, &r.event, hold.in_array ? room : d + at, r.out);
    at += hold.taken;
    switch (follow(&r)) {
      case NEXT:
        continue;
      case FULL:
        MUST(at == end);
        if (end < n) break;
        return p;
      default:
        return p;
    }
    end = n - end < step ? n : end + step;
  }
}

/* A stream of a connection, whole, cut where the second byte says, and pushed in these pieces: the same
   events. The first byte is the side and the stream. Of a malformed section any rule that it breaks may be named. */
static void connection(const uint8_t *d, size_t n) {
  uint8_t side;
  uint64_t id;
  played whole, cut, pushed;
  if (n < 2) return;
  side = d[0] & 1;
  id = d[0] >> 1 & 3;
  whole = play(d + 2, n - 2, side, id, n);
  cut = play(d + 2, n - 2, side, id, d[1] > 0 ? d[1] : 1);
  pushed = push(d + 2, n - 2, side, id, d[1] > 0 ? d[1] : 1);
  MUST(whole.sum == cut.sum && whole.events == cut.events && whole.content == cut.content);
  MUST(whole.sum == pushed.sum && whole.events == pushed.events && whole.content == pushed.content);
}

#include "schedule.h"
#include "tables.h"

int LLVMFuzzerTestOneInput(const uint8_t *data, size_t size);
int LLVMFuzzerTestOneInput(const uint8_t *data, size_t size) {
  uint8_t *copy = malloc(size > 0 ? size : 1);
  if (copy == NULL) return 0;
  if (size > 0) memcpy(copy, data, size);
  TARGET(copy, size);
  free(copy);
  return 0;
}
