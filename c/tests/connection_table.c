/* QPACK's dynamic table in an array of the caller: the example of RFC 9204, appendix B, streams that
   wait, faults, arrays that have no table, and the smallest capacities. */
#include "connection.h"

/* The capacity of appendix B. */
#define CAPACITY 220

/* The encoder stream of appendix B.2 to B.5. */
static const char stream_b2[] = "\x3f\xbd\x01\xc0\x0fwww.example.com\xc1\x0c/sample/path";
static const char stream_b3[] = "\x4a"
                                "custom-key\x0c"
                                "custom-value";
static const char stream_b4[] = "\x02";
static const char stream_b5[] = "\x81\x0d"
                                "custom-value2";

typedef struct tabled {
  wt_connection connection;
  uint8_t *table;
  size_t size;
  reading encoder;
} tabled;

/* Reads once, with the table. */
static int receive_tabled(tabled *t, reading *r, const void *bytes, size_t size) {
  uint8_t *copy = exactly(bytes, size);
  int answer;
  memset(&r->event, 0xff, sizeof r->event);
  answer = wt_receive(&t->connection, &r->stream, r->held, sizeof r->held, t->table, t->size, copy,
                      size, 0, &r->event, r->fields, 64, r->out, sizeof r->out);
  free(copy);
  return answer;
}

/* A connection of a server whose table has this capacity, and the encoder stream of its client. */
static tabled *begin(uint64_t capacity) {
  tabled *t = (tabled *)calloc(1, sizeof *t);
  if (t == NULL) abort();
  t->connection = connection_of(WT_SIDE_SERVER, 0);
  t->size = wt_table_size(capacity);
  t->table = (uint8_t *)malloc(t->size);
  if (t->table == NULL) abort();
  memset(t->table, 0x55, t->size);
  CHECK(wt_table_new(capacity, t->table, t->size) == WT_OK);
  CHECK(wt_stream_accept(&t->connection, 2, &t->encoder.stream) == WT_OK);
  CHECK(receive_tabled(t, &t->encoder, "\x02", 1) == WT_OK);
  CHECK(t->encoder.event.kind == WT_EVENT_OPENED && t->encoder.event.detail == WT_PURPOSE_ENCODER &&
        t->encoder.event.consumed == 1);
  return t;
}

static void end(tabled *t) {
  free(t->table);
  free(t);
}

/* Reads bytes of the encoder stream, after which so many entries were inserted. */
static void insert(tabled *t, const char *bytes, size_t size, uint64_t wanted) {
  uint64_t count = UNCHANGED;
  CHECK(receive_tabled(t, &t->encoder, bytes, size) == WT_OK);
  CHECK(t->encoder.event.kind == WT_EVENT_INSERTED && t->encoder.event.number == wanted &&
        t->encoder.event.consumed == size && t->encoder.event.length == 0);
  CHECK(wt_table_insert_count(t->table, t->size, &count) == WT_OK && count == wanted);
}

/* Begins a request on the stream with this ID, and reads its HEADERS once. */
static reading *request(tabled *t, uint64_t id, const char *bytes, size_t size) {
  reading *r = (reading *)calloc(1, sizeof *r);
  if (r == NULL) abort();
  CHECK(wt_stream_accept(&t->connection, id, &r->stream) == WT_OK);
  CHECK(receive_tabled(t, r, bytes, size) == WT_OK);
  CHECK(r->event.kind == WT_EVENT_OPENED && r->event.detail == WT_PURPOSE_MESSAGE &&
        r->event.consumed == 0);
  CHECK(receive_tabled(t, r, bytes, size) == WT_OK);
  return r;
}

/* (The type and the length of the frame are consumed, and not its payload.) */
static void waits_for(const reading *r, uint64_t wanted) {
  uint32_t waits = UNCHANGED;
  uint64_t count = UNCHANGED;
  CHECK(r->event.kind == WT_EVENT_WAITS && r->event.detail == WT_WAITS_TABLE &&
        r->event.number == wanted && r->event.consumed == 2);
  CHECK(wt_stream_waits(&r->stream, &waits, &count) == WT_OK && waits == WT_WAITS_TABLE &&
        count == wanted);
}

enum { ACKNOWLEDGE, INCREMENT, CANCEL };

static int say(tabled *t, int what, uint64_t id, uint8_t *out, size_t room, size_t *used) {
  if (what == ACKNOWLEDGE) return wt_table_acknowledge(t->table, t->size, id, out, room, used);
  if (what == INCREMENT) return wt_table_increment(t->table, t->size, out, room, used);
  return wt_table_cancel(t->table, t->size, id, out, room, used);
}

/* Writes what is due on the decoder stream: one byte, or none if wanted is -1. */
static void says(tabled *t, int what, uint64_t id, int wanted) {
  uint8_t out[2] = {0x55, 0x55};
  size_t used = UNCHANGED;
  if (wanted >= 0) {
    uint8_t *same = exactly(t->table, t->size);
    CHECK(say(t, what, id, NULL, 0, &used) == WT_BUFFER_TOO_SMALL && used == 1);
    CHECK(!memcmp(same, t->table, t->size));
    free(same);
  }
  CHECK(say(t, what, id, out, 1, &used) == WT_OK && used == (wanted >= 0 ? 1u : 0u));
  CHECK(out[0] == (wanted >= 0 ? wanted : 0x55) && out[1] == 0x55);
}

/* Whether the fields of an event are these texts, one after the other. */
static int has_texts(const reading *r, size_t fields, const char *texts) {
  return r->event.fields == fields && r->event.used == strlen(texts) &&
         !memcmp(r->out, texts, strlen(texts));
}

/* RFC 9204, appendix B. Its sections have no :method, so the requests are malformed: they were read. */
static void appendix(void) {
  tabled *t = begin(CAPACITY);
  reading *r = request(t, 0, "\x01\x0f\x00\x00\x51\x0b/index.html", 17);
  CHECK(r->event.kind == WT_EVENT_MALFORMED && r->event.detail == WT_RULE_MISSING_METHOD);
  says(t, ACKNOWLEDGE, 0, -1);
  free(r);

  r = request(t, 4, "\x01\x04\x03\x81\x10\x11", 6);
  waits_for(r, 2);
  says(t, ACKNOWLEDGE, 4, -1);
  says(t, INCREMENT, 0, -1);
  insert(t, stream_b2, sizeof stream_b2 - 1, 2);
  CHECK(receive_tabled(t, r, "\x03\x81\x10\x11", 4) == WT_OK);
  CHECK(r->event.kind == WT_EVENT_MALFORMED && r->event.detail == WT_RULE_MISSING_METHOD &&
        r->event.consumed == 4);
  says(t, ACKNOWLEDGE, 4, 0x84);
  says(t, ACKNOWLEDGE, 4, -1);
  says(t, INCREMENT, 0, -1);
  free(r);

  insert(t, stream_b3, sizeof stream_b3 - 1, 3);
  says(t, INCREMENT, 0, 0x01);
  r = request(t, 8, "\x01\x05\x05\x00\x80\xc1\x81", 7);
  waits_for(r, 4);
  insert(t, stream_b4, sizeof stream_b4 - 1, 4);
  says(t, CANCEL, 8, 0x48);
  free(r);
  insert(t, stream_b5, sizeof stream_b5 - 1, 5);
  says(t, INCREMENT, 0, 0x02);
  says(t, INCREMENT, 0, -1);
  end(t);
}

/* The lines of appendix B, after :method GET and :scheme https. */
static void requests(void) {
  tabled *t = begin(CAPACITY);
  reading *r = request(t, 4, "\x01\x06\x03\x00\xd1\xd7\x81\x80", 8), *other;
  waits_for(r, 2);
  insert(t, stream_b2, sizeof stream_b2 - 1, 2);
  CHECK(receive_tabled(t, r, "\x03\x00\xd1\xd7\x81\x80", 6) == WT_OK);
  CHECK(r->event.kind == WT_EVENT_HEADERS && r->event.detail == WT_HEADERS_REQUEST &&
        r->event.consumed == 6);
  CHECK(has_texts(r, 4, ":methodGET:schemehttps:authoritywww.example.com:path/sample/path"));
  /* another call comes first: nothing is to be acknowledged after it */
  insert(t, stream_b3, sizeof stream_b3 - 1, 3);
  says(t, ACKNOWLEDGE, 4, -1);
  free(r);

  insert(t, stream_b4, sizeof stream_b4 - 1, 4);
  r = request(t, 8, "\x01\x07\x05\x00\xd1\xd7\x80\xc1\x81", 9);
  CHECK(r->event.kind == WT_EVENT_HEADERS);
  CHECK(has_texts(r, 5, ":methodGET:schemehttps:authoritywww.example.com:path/custom-keycustom-value"));
  says(t, ACKNOWLEDGE, 8, 0x88);
  free(r);

  /* :authority was evicted, but for its duplicate */
  insert(t, stream_b5, sizeof stream_b5 - 1, 5);
  r = request(t, 12, "\x01\x07\x06\x00\xd1\xd7\x81\x83\x80", 9);
  CHECK(r->event.kind == WT_EVENT_HEADERS);
  CHECK(has_texts(r, 5, ":methodGET:schemehttps:authoritywww.example.com:path/sample/path"
                        "custom-keycustom-value2"));
  other = request(t, 16, "\x01\x05\x06\x00\xd1\xd7\x84", 7);
  CHECK(other->event.kind == WT_EVENT_CONNECTION_ERROR &&
        other->event.number == WT_QPACK_DECOMPRESSION_FAILED);
  free(r), free(other);
  end(t);
}

/* The cancellation of a stream keeps the acknowledgment that is due for another, and not its own. */
static void cancellations(void) {
  tabled *t = begin(CAPACITY);
  reading *r;
  insert(t, stream_b2, sizeof stream_b2 - 1, 2);
  r = request(t, 0, "\x01\x06\x03\x00\xd1\xd7\x81\x80", 8);
  CHECK(r->event.kind == WT_EVENT_HEADERS);
  says(t, CANCEL, 4, 0x44);
  says(t, ACKNOWLEDGE, 0, 0x80);
  says(t, ACKNOWLEDGE, 0, -1);
  free(r);
  r = request(t, 8, "\x01\x06\x03\x00\xd1\xd7\x81\x80", 8);
  CHECK(r->event.kind == WT_EVENT_HEADERS);
  says(t, CANCEL, 8, 0x48);
  says(t, ACKNOWLEDGE, 8, -1);
  free(r);
  end(t);
}

/* Wherever the encoder stream is cut, the table is the same. */
static void cuts(void) {
  char whole[128];
  size_t size = 0, cut;
  tabled *t = begin(CAPACITY);
  memcpy(whole + size, stream_b2, sizeof stream_b2 - 1), size += sizeof stream_b2 - 1;
  memcpy(whole + size, stream_b3, sizeof stream_b3 - 1), size += sizeof stream_b3 - 1;
  memcpy(whole + size, stream_b4, sizeof stream_b4 - 1), size += sizeof stream_b4 - 1;
  memcpy(whole + size, stream_b5, sizeof stream_b5 - 1), size += sizeof stream_b5 - 1;
  insert(t, whole, size, 5);
  for (cut = 1; cut < size; cut++) {
    tabled *u = begin(CAPACITY);
    size_t n;
    CHECK(receive_tabled(u, &u->encoder, whole, cut) == WT_OK);
    CHECK(u->encoder.event.kind == WT_EVENT_INSERTED && u->encoder.event.consumed == cut);
    insert(u, whole + cut, size - cut, 5);
    /* what follows the bytes of a table is what was there before */
    for (n = u->size; n > 0 && t->table[n - 1] == 0x55; n--) {}
    CHECK(!memcmp(u->table, t->table, n));
    end(u);
  }
  end(t);
}

static void faults(void) {
  tabled *t = begin(CAPACITY);
  reading *r;
  uint64_t count = UNCHANGED;
  /* a capacity of 221 */
  CHECK(receive_tabled(t, &t->encoder, "\x3f\xbe\x01", 3) == WT_OK);
  CHECK(t->encoder.event.kind == WT_EVENT_CONNECTION_ERROR &&
        t->encoder.event.number == WT_QPACK_ENCODER_STREAM_ERROR && t->encoder.event.consumed == 3);
  CHECK(receive_tabled(t, &t->encoder, "\x3f\xbe\x01", 3) == WT_OK);
  CHECK(t->encoder.event.kind == WT_EVENT_MORE && t->encoder.event.consumed == 3);
  CHECK(wt_table_insert_count(t->table, t->size, &count) == WT_OK && count == 0);
  end(t);
  t = begin(CAPACITY);
  /* the 13th of 12 values that a Required Insert Count has (section 4.5.1.1) */
  r = request(t, 0, "\x01\x03\x0d\x00\x80", 5);
  CHECK(r->event.kind == WT_EVENT_CONNECTION_ERROR &&
        r->event.number == WT_QPACK_DECOMPRESSION_FAILED && r->event.consumed == 5);
  free(r);
  end(t);
  /* without a table no section may refer to one */
  t = begin(CAPACITY);
  t->size = 0;
  r = request(t, 0, "\x01\x03\x02\x00\x80", 5);
  CHECK(r->event.kind == WT_EVENT_CONNECTION_ERROR &&
        r->event.number == WT_QPACK_DECOMPRESSION_FAILED);
  free(r);
  end(t);
}

static void blocked(void) {
  tabled *t = begin(CAPACITY);
  wt_connection other = t->connection;
  wt_event e;
  CHECK(wt_too_many_blocked(&t->connection, &e) == WT_OK);
  CHECK(e.kind == WT_EVENT_CONNECTION_ERROR && e.number == WT_QPACK_DECOMPRESSION_FAILED &&
        e.consumed == 0);
  CHECK(wt_too_many_blocked(&t->connection, &e) == WT_OK && e.kind == WT_EVENT_MORE);
  other.words[31] = 1;
  e.kind = UNCHANGED;
  CHECK(wt_too_many_blocked(&other, &e) == WT_INVALID && e.kind == UNCHANGED);
  end(t);
}

/* Each call refuses these bytes, and changes nothing. */
static void refused(tabled *t, const uint8_t *bytes, size_t size) {
  uint8_t *table = exactly(bytes, size), out[16];
  wt_connection same = t->connection;
  wt_event e;
  uint64_t count = UNCHANGED;
  size_t used = UNCHANGED;
  if (size > 0) {
    memset(&e, 0x55, sizeof e);
    CHECK(wt_receive(&t->connection, &t->encoder.stream, NULL, 0, table, size,
                     (const uint8_t *)"\x20", 1, 0, &e, NULL, 0, NULL, 0) == WT_INVALID);
    CHECK(e.kind == 0x55555555);
  }
  CHECK(wt_table_insert_count(table, size, &count) == WT_INVALID && count == UNCHANGED);
  CHECK(wt_table_acknowledge(table, size, 4, out, 16, &used) == WT_INVALID && used == UNCHANGED);
  CHECK(wt_table_increment(table, size, out, 16, &used) == WT_INVALID && used == UNCHANGED);
  CHECK(wt_table_cancel(table, size, 4, out, 16, &used) == WT_INVALID && used == UNCHANGED);
  CHECK((size == 0 || !memcmp(table, bytes, size)) && !memcmp(&t->connection, &same, sizeof same));
  free(table);
}

/* The words of a table are 8 bytes each: whether something is to be acknowledged and how many
   insertions it needed; the limit of the capacity and the capacity; how many entries were evicted,
   and how many the peer knows of; the fault; the bytes held, and the entries. */
static void wrong_bytes(void) {
  static const struct {
    size_t at;
    uint8_t byte;
  } rows[] = {{7, 65}, {7, 255}, {8, 1},   {17, 1},  {23, 16}, {25, 1},
              {39, 64}, {40, 3}, {48, 10}, {56, 255}, {64, 3},  {72, 200}};
  tabled *t = begin(CAPACITY);
  size_t row;
  insert(t, stream_b2, sizeof stream_b2 - 1, 2);
  for (row = 0; row < sizeof rows / sizeof *rows; row++) {
    uint8_t *bytes = exactly(t->table, t->size);
    CHECK(bytes[rows[row].at] != rows[row].byte);
    bytes[rows[row].at] = rows[row].byte;
    refused(t, bytes, t->size);
    free(bytes);
  }
  refused(t, t->table, t->size - 1);
  refused(t, t->table, 15);
  refused(t, t->table, 0);
  end(t);
}

static void capacities(void) {
  static const uint64_t large = UINT64_C(1) << 60;
  uint8_t table[106];
  tabled *t;
  reading *r;
  CHECK(WT_TABLE_SIZE(0) == 104 && WT_TABLE_SIZE(4096) == 20584);
  CHECK(wt_table_size(0) == 104 && wt_table_size(CAPACITY) == 1204 && wt_table_size(4096) == 20584);
  CHECK(wt_table_size(large - 1) == 5 * (large - 1) + 104 && wt_table_size(large) == 0);
  CHECK(wt_table_size(UINT64_MAX) == 0);
  memset(table, 0x55, sizeof table);
  CHECK(wt_table_new(large, table, 106) == WT_INVALID && wt_table_new(0, table, 103) == WT_INVALID);
  CHECK(wt_table_new(1, table, 106) == WT_INVALID && table[0] == 0x55);
  CHECK(wt_table_new(0, table, 106) == WT_OK && table[0] == 0 && table[105] == 0x55);

  /* with the capacity 0 nothing is inserted, and no stream needs a cancellation */
  t = begin(0);
  insert(t, "\x20", 1, 0);
  says(t, CANCEL, 4, -1);
  says(t, INCREMENT, 0, -1);
  r = request(t, 0, "\x01\x06\x00\x00\xd1\xd7\xc1\x50", 8);
  CHECK(r->event.kind == WT_EVENT_CONNECTION_ERROR);
  free(r);
  end(t);
  t = begin(0);
  CHECK(receive_tabled(t, &t->encoder, "\x21", 1) == WT_OK);
  CHECK(t->encoder.event.kind == WT_EVENT_CONNECTION_ERROR &&
        t->encoder.event.number == WT_QPACK_ENCODER_STREAM_ERROR);
  end(t);
  t = begin(0);
  r = request(t, 0, "\x01\x03\x02\x00\x80", 5);
  CHECK(r->event.kind == WT_EVENT_CONNECTION_ERROR &&
        r->event.number == WT_QPACK_DECOMPRESSION_FAILED);
  free(r);
  end(t);

  /* an entry of no name and no value has the size 32, and each one evicts the one before */
  t = begin(32);
  insert(t, "\x3f\x01\x40\x00", 4, 1);
  insert(t, "\x40\x00", 2, 2);
  says(t, INCREMENT, 0, 0x02);
  CHECK(receive_tabled(t, &t->encoder, "\x41z\x00", 3) == WT_OK);
  CHECK(t->encoder.event.kind == WT_EVENT_CONNECTION_ERROR &&
        t->encoder.event.number == WT_QPACK_ENCODER_STREAM_ERROR);
  end(t);
}

/* Too little room changes neither the table nor what is to be acknowledged. */
static void rooms(void) {
  tabled *t = begin(CAPACITY);
  reading *r;
  uint8_t *same;
  wt_stream before;
  insert(t, stream_b2, sizeof stream_b2 - 1, 2);
  r = request(t, 4, "\x01\x06\x03\x00\xd1\xd7\x81", 7);
  CHECK(r->event.kind == WT_EVENT_MORE);
  same = exactly(t->table, t->size);
  before = r->stream;
  CHECK(wt_receive(&t->connection, &r->stream, NULL, 0, t->table, t->size,
                   (const uint8_t *)"\x01\x06\x03\x00\xd1\xd7\x81\x80", 8, 0, &r->event, r->fields, 3,
                   r->out, sizeof r->out) == WT_BUFFER_TOO_SMALL);
  CHECK(r->event.kind == WT_EVENT_HEADERS && r->event.fields == 4);
  CHECK(!memcmp(same, t->table, t->size) && !memcmp(&before, &r->stream, sizeof before));
  says(t, ACKNOWLEDGE, 4, -1);
  CHECK(receive_tabled(t, r, "\x01\x06\x03\x00\xd1\xd7\x81\x80", 8) == WT_OK);
  CHECK(r->event.kind == WT_EVENT_HEADERS);
  says(t, ACKNOWLEDGE, 4, 0x84);
  free(same), free(r);
  end(t);
}

/* A chunk of each stream, as a QUIC stack gives it. */
static void pushed(void) {
  static const char bytes[] = "\x01\x06\x03\x00\xd1\xd7\x81\x80";
  static wt_hold empty;
  tabled *t = begin(CAPACITY);
  reading *r = (reading *)calloc(1, sizeof *r);
  wt_hold hold = empty, encoder_hold = empty;
  uint8_t room[64], encoder_room[64];
  size_t at;
  if (r == NULL) abort();
  CHECK(wt_stream_accept(&t->connection, 4, &r->stream) == WT_OK);
  CHECK(wt_receive_pushed(&t->connection, &r->stream, NULL, 0, t->table, t->size, &hold, room, 64,
                          (const uint8_t *)bytes, 8, 1, &r->event, r->fields, 64, r->out,
                          sizeof r->out) == WT_OK);
  CHECK(r->event.kind == WT_EVENT_OPENED && hold.taken == 0);
  CHECK(wt_receive_pushed(&t->connection, &r->stream, NULL, 0, t->table, t->size, &hold, room, 64,
                          (const uint8_t *)bytes, 8, 1, &r->event, r->fields, 64, r->out,
                          sizeof r->out) == WT_OK);
  waits_for(r, 2);
  CHECK(hold.taken == 8 && hold.end - hold.start == 6 && hold.fin == 1);
  for (at = 0; at < sizeof stream_b2 - 1; at++) {
    CHECK(wt_receive_pushed(&t->connection, &t->encoder.stream, NULL, 0, t->table, t->size,
                            &encoder_hold, encoder_room, 64, (const uint8_t *)stream_b2 + at, 1, 0,
                            &t->encoder.event, NULL, 0, NULL, 0) == WT_OK);
    CHECK(t->encoder.event.kind == WT_EVENT_INSERTED && encoder_hold.taken == 1 &&
          encoder_hold.end == encoder_hold.start);
  }
  CHECK(t->encoder.event.number == 2);
  CHECK(wt_receive_pushed(&t->connection, &r->stream, NULL, 0, t->table, t->size, &hold, room, 64,
                          NULL, 0, 0, &r->event, r->fields, 64, r->out, sizeof r->out) == WT_OK);
  CHECK(r->event.kind == WT_EVENT_HEADERS && hold.end == hold.start);
  CHECK(has_texts(r, 4, ":methodGET:schemehttps:authoritywww.example.com:path/sample/path"));
  says(t, ACKNOWLEDGE, 4, 0x84);
  CHECK(wt_receive_pushed(&t->connection, &r->stream, NULL, 0, t->table, t->size, &hold, room, 64,
                          NULL, 0, 0, &r->event, r->fields, 64, r->out, sizeof r->out) == WT_OK);
  CHECK(r->event.kind == WT_EVENT_END);
  t->table[7] = 65;
  CHECK(wt_receive_pushed(&t->connection, &r->stream, NULL, 0, t->table, t->size, &hold, room, 64,
                          NULL, 0, 0, &r->event, NULL, 0, NULL, 0) == WT_INVALID);
  CHECK(hold.taken == 0);
  free(r);
  end(t);
}

void test_connection_table(void) {
  appendix();
  requests();
  cancellations();
  cuts();
  faults();
  blocked();
  wrong_bytes();
  capacities();
  rooms();
  pushed();
}
