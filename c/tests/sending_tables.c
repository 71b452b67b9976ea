/* Sections that refer to QPACK's dynamic table: instructions and frames by RFC 9204, whose appendix B has
   the fields (their Huffman texts are those of RFC 7541, appendix C.4), what the decoder stream says of
   them, arrays that have no encoder, and outputs that are too short. */
#include "sending.h"

/* The capacity of appendix B, and how many sections may be unacknowledged. */
enum { CAPACITY = 220, SECTIONS = 4, SIZE = WT_ENCODER_SIZE(CAPACITY, SECTIONS) };

static const wt_policy policy = {1024, 0, SECTIONS};

/* A request for https://www.example.com/ (appendix B.2 inserts its authority). */
static const char get[] = ":method GET\n:scheme https\n:authority www.example.com\n:path /\n";

/* Set Dynamic Table Capacity (section 4.3.1): 220 is 31 and 61 + 1 * 128. */
static const uint8_t set_capacity[] = {0x3f, 0xbd, 0x01};

/* Insert with Name Reference (section 4.3.2): the first name of the static table, www.example.com. */
static const uint8_t insert_authority[] = {0xc0, 0x8c, 0xf1, 0xe3, 0xc2, 0xe5, 0xf2,
                                           0x3a, 0x6b, 0xa0, 0xab, 0x90, 0xf4, 0xff};

/* Insert with Literal Name (section 4.3.3): custom-key and custom-value. */
static const uint8_t insert_custom[] = {0x68, 0x25, 0xa8, 0x49, 0xe9, 0x5b, 0xa9, 0x7d, 0x7f, 0x89,
                                        0x25, 0xa8, 0x49, 0xe9, 0x5b, 0xb8, 0xe8, 0xb4, 0xbf};

/* The frame of the request: with Required Insert Count 1 and Base 1, two static entries, the dynamic one
   and a static one (section 4.5). */
static const uint8_t get_by_table[] = {0x01, 0x06, 0x02, 0x00, 0xd1, 0xd7, 0x80, 0xc1};

/* The same with the authority as a literal that has the name of a static entry. */
static const uint8_t get_without[] = {0x01, 0x13, 0x00, 0x00, 0xd1, 0xd7, 0x50, 0x8c, 0xf1, 0xe3, 0xc2,
                                      0xe5, 0xf2, 0x3a, 0x6b, 0xa0, 0xab, 0x90, 0xf4, 0xff, 0xc1};

/* Trailers of the field custom-key, with Required Insert Count 2 and Base 2. */
static const uint8_t custom_by_table[] = {0x01, 0x03, 0x03, 0x00, 0x80};

typedef struct encoding {
  wt_connection connection;
  uint8_t *encoder;
  size_t size;
} encoding;

/* A connection of a client, and an encoder in an array of this size. */
static encoding begin(const wt_policy *p, size_t size) {
  encoding e;
  e.connection = connection_of(WT_SIDE_CLIENT, 0);
  e.size = size;
  e.encoder = (uint8_t *)malloc(size);
  if (e.encoder == NULL) abort();
  memset(e.encoder, 0x55, size);
  CHECK(wt_encoder_new(p, e.encoder, size) == WT_OK);
  return e;
}

/* Sets limits, which writes these bytes. */
static void limits(encoding *e, uint64_t limit, uint64_t blocked, const uint8_t *bytes, size_t size) {
  uint8_t out[16];
  size_t used = UNCHANGED;
  memset(out, 0x55, sizeof out);
  if (size > 0) {
    uint8_t *same = exactly(e->encoder, e->size);
    CHECK(wt_encoder_limits(e->encoder, e->size, limit, blocked, out, size - 1, &used) ==
          WT_BUFFER_TOO_SMALL);
    CHECK(used == size && out[0] == 0x55 && !memcmp(same, e->encoder, e->size));
    free(same);
  }
  used = UNCHANGED;
  CHECK(wt_encoder_limits(e->encoder, e->size, limit, blocked, size > 0 ? out : NULL, size, &used) ==
        WT_OK);
  CHECK(used == size && !memcmp(out, bytes, size) && out[size] == 0x55);
}

static encoding begin_limited(void) {
  encoding e = begin(&policy, SIZE);
  limits(&e, CAPACITY, 1, set_capacity, sizeof set_capacity);
  return e;
}

/* Both calls, by their lines of fields. */
static int make_with(int call, wt_sending *s, uint8_t *encoder, size_t size, const listed *l,
                     uint8_t *orders, size_t orders_room, size_t *orders_used, uint8_t *out, size_t room,
                     size_t *used, uint32_t *why) {
  if (call == HEADERS)
    return wt_sending_headers_with(s, encoder, size, l->fields, l->count, l->texts, l->used, orders,
                                   orders_room, orders_used, out, room, used, why);
  return wt_sending_trailers_with(s, encoder, size, l->fields, l->count, l->texts, l->used, orders,
                                  orders_room, orders_used, out, room, used, why);
}

static uint64_t open_sections(const encoding *e) {
  uint64_t count = UNCHANGED;
  CHECK(wt_encoder_unacknowledged(e->encoder, e->size, &count) == WT_OK);
  return count;
}

/* With these rooms the call says which it needs, and changes nothing. */
static void lacks(encoding *e, int call, wt_sending *s, const listed *l, size_t orders_room, size_t room,
                  size_t orders_size, size_t size) {
  uint8_t orders[64], out[64], *same = exactly(e->encoder, e->size);
  wt_sending before = *s;
  size_t orders_used = UNCHANGED, used = UNCHANGED;
  uint32_t why = UNCHANGED;
  memset(orders, 0x55, sizeof orders), memset(out, 0x55, sizeof out);
  CHECK(make_with(call, s, e->encoder, e->size, l, orders_room > 0 ? orders : NULL, orders_room,
                  &orders_used, room > 0 ? out : NULL, room, &used, &why) == WT_BUFFER_TOO_SMALL);
  CHECK(orders_used == orders_size && used == size && why == UNCHANGED);
  CHECK(orders[0] == 0x55 && out[0] == 0x55 && !memcmp(&before, s, sizeof before));
  CHECK(!memcmp(same, e->encoder, e->size));
  free(same);
}

/* The call writes these instructions and this frame. */
static void sends(encoding *e, int call, wt_sending *s, const char *fields, const uint8_t *orders,
                  size_t orders_size, const uint8_t *frame, size_t size) {
  listed l = list_of(fields);
  uint8_t orders_out[64], out[64];
  size_t orders_used = UNCHANGED, used = UNCHANGED;
  uint32_t why = UNCHANGED;
  if (orders_size > 0) lacks(e, call, s, &l, orders_size - 1, size, orders_size, size);
  lacks(e, call, s, &l, orders_size, size - 1, orders_size, size);
  lacks(e, call, s, &l, 0, 0, orders_size, size);
  memset(orders_out, 0x55, sizeof orders_out), memset(out, 0x55, sizeof out);
  CHECK(make_with(call, s, e->encoder, e->size, &l, orders_out, orders_size, &orders_used, out, size,
                  &used, &why) == WT_OK);
  CHECK(orders_used == orders_size && used == size && why == UNCHANGED);
  CHECK(orders_size == 0 || !memcmp(orders_out, orders, orders_size));
  CHECK(orders_out[orders_size] == 0x55);
  CHECK(!memcmp(out, frame, size) && out[size] == 0x55);
}

static void receives(encoding *e, const char *bytes, size_t size) {
  uint8_t *copy = exactly(bytes, size);
  uint64_t code = UNCHANGED;
  CHECK(wt_encoder_receive(e->encoder, e->size, copy, size, &code) == WT_OK && code == UNCHANGED);
  free(copy);
}

static void appendix(void) {
  encoding e = begin(&policy, SIZE);
  wt_sending s = request_on(&e.connection, 0);
  uint32_t why = UNCHANGED;
  /* there is no table yet, and this does not use one */
  sends(&e, HEADERS, &s, get, NULL, 0, get_without, sizeof get_without);
  CHECK(open_sections(&e) == 0);
  limits(&e, CAPACITY, 1, set_capacity, sizeof set_capacity);

  s = request_on(&e.connection, 4);
  sends(&e, HEADERS, &s, get, insert_authority, sizeof insert_authority, get_by_table,
        sizeof get_by_table);
  CHECK(open_sections(&e) == 1);
  /* stream 4 may be blocked, and no other one */
  s = request_on(&e.connection, 8);
  sends(&e, HEADERS, &s, get, NULL, 0, get_without, sizeof get_without);
  CHECK(open_sections(&e) == 1);
  receives(&e, "\x84", 1);
  CHECK(open_sections(&e) == 0);
  /* the entry is received now, and the stream of this section is not blocked */
  s = request_on(&e.connection, 12);
  sends(&e, HEADERS, &s, get, NULL, 0, get_by_table, sizeof get_by_table);
  CHECK(open_sections(&e) == 1);
  sends(&e, TRAILERS, &s, "custom-key custom-value\n", insert_custom, sizeof insert_custom,
        custom_by_table, sizeof custom_by_table);
  CHECK(open_sections(&e) == 2);
  CHECK(wt_sending_finish(&s, &why) == WT_OK && why == UNCHANGED);
  /* a cancellation of stream 12 */
  receives(&e, "\x4c", 1);
  CHECK(open_sections(&e) == 0);
  free(e.encoder);
}

/* A section that is not sent is taken back: it blocks no other one. Its insertion stays. */
static void taken_back(void) {
  encoding e = begin_limited();
  wt_sending s = request_on(&e.connection, 0);
  sends(&e, HEADERS, &s, get, insert_authority, sizeof insert_authority, get_by_table,
        sizeof get_by_table);
  CHECK(wt_encoder_take_back(e.encoder, e.size, 1) == WT_OK && open_sections(&e) == 1);
  CHECK(wt_encoder_take_back(e.encoder, e.size, UINT64_MAX) == WT_OK && open_sections(&e) == 1);
  CHECK(wt_encoder_take_back(e.encoder, e.size, 0) == WT_OK && open_sections(&e) == 0);
  s = request_on(&e.connection, 4);
  sends(&e, HEADERS, &s, get, NULL, 0, get_by_table, sizeof get_by_table);
  CHECK(open_sections(&e) == 1);
  receives(&e, "\x84", 1);
  free(e.encoder);
}

/* As many sections as the policy allows are not acknowledged: the next one refers to no entry. */
static void counted(void) {
  encoding e = begin_limited();
  wt_sending s;
  uint64_t id;
  for (id = 0; id < SECTIONS; id++) {
    s = request_on(&e.connection, 4 * id);
    if (id == 0) {
      sends(&e, HEADERS, &s, get, insert_authority, sizeof insert_authority, get_by_table,
            sizeof get_by_table);
      receives(&e, "\x01", 1); /* the insertion came */
    } else {
      sends(&e, HEADERS, &s, get, NULL, 0, get_by_table, sizeof get_by_table);
    }
    CHECK(open_sections(&e) == id + 1);
  }
  s = request_on(&e.connection, 4 * id);
  sends(&e, HEADERS, &s, get, NULL, 0, get_without, sizeof get_without);
  CHECK(open_sections(&e) == SECTIONS);
  free(e.encoder);
}

/* The instructions are cut wherever they may be: here the acknowledgment of a section on stream 200. */
static void cut(void) {
  encoding e = begin_limited();
  wt_sending s = request_on(&e.connection, 200);
  sends(&e, HEADERS, &s, get, insert_authority, sizeof insert_authority, get_by_table,
        sizeof get_by_table);
  receives(&e, NULL, 0);
  receives(&e, "\xff", 1);
  CHECK(open_sections(&e) == 1);
  receives(&e, "\x49", 1);
  CHECK(open_sections(&e) == 0);
  free(e.encoder);
}

/* Bytes of the decoder stream that break a rule (section 4.4): the acknowledgment of no section, an
   increment of 0, one past the insertions, and a number above 2^64 - 1. */
static void faults(void) {
  static const struct {
    const char *bytes;
    size_t size;
  } rows[] = {{"\x80", 1}, {"\x00", 1}, {"\x02", 1}, {"\x84\x84", 2}, {"\x01\x01", 2},
              {"\x3f\xff\xff\xff\xff\xff\xff\xff\xff\xff\x7f", 11}};
  size_t row;
  for (row = 0; row < sizeof rows / sizeof *rows; row++) {
    encoding e = begin_limited();
    wt_sending s = request_on(&e.connection, 4);
    uint8_t *same;
    uint64_t code = UNCHANGED;
    sends(&e, HEADERS, &s, get, insert_authority, sizeof insert_authority, get_by_table,
          sizeof get_by_table);
    same = exactly(e.encoder, e.size);
    CHECK(wt_encoder_receive(e.encoder, e.size, (const uint8_t *)rows[row].bytes, rows[row].size,
                             &code) == WT_ERROR);
    CHECK(code == WT_QPACK_DECODER_STREAM_ERROR && !memcmp(same, e.encoder, e.size));
    receives(&e, "\x84", 1);
    free(same), free(e.encoder);
  }
}

/* A message that may not be sent: the encoder is not asked. */
static void refused_messages(void) {
  static const struct {
    int call;
    const char *fields;
    uint32_t why;
  } rows[] = {{HEADERS, "custom-key custom-value\n", WT_RULE_MISSING_METHOD},
              {HEADERS, ":method GET\n:scheme https\n:authority a\n:path /\nA b\n",
               WT_RULE_INVALID_NAME},
              {TRAILERS, "custom-key custom-value\n", WT_SEND_UNEXPECTED}};
  encoding e = begin_limited();
  size_t row;
  for (row = 0; row < sizeof rows / sizeof *rows; row++) {
    wt_sending s = request_on(&e.connection, 0), before = s;
    listed l = list_of(rows[row].fields);
    uint8_t *same = exactly(e.encoder, e.size), orders[64], out[64];
    size_t orders_used = UNCHANGED, used = UNCHANGED;
    uint32_t why = UNCHANGED;
    orders[0] = out[0] = 0x55;
    CHECK(make_with(rows[row].call, &s, e.encoder, e.size, &l, orders, 64, &orders_used, out, 64, &used,
                    &why) == WT_REFUSED);
    CHECK(why == rows[row].why && orders_used == UNCHANGED && used == UNCHANGED);
    CHECK(orders[0] == 0x55 && out[0] == 0x55 && !memcmp(&before, &s, sizeof s));
    CHECK(!memcmp(same, e.encoder, e.size));
    free(same);
  }
  free(e.encoder);
}

/* Each call refuses these arguments with WT_INVALID, and changes nothing. */
static void invalid_message(const wt_sending *odd, const uint8_t *encoder, size_t size, const listed *l) {
  uint8_t *copy = exactly(encoder, size), orders[64], out[64];
  wt_sending s = *odd;
  size_t orders_used = UNCHANGED, used = UNCHANGED;
  uint32_t why = UNCHANGED;
  int call;
  orders[0] = out[0] = 0x55;
  for (call = HEADERS; call <= TRAILERS; call++)
    CHECK(make_with(call, &s, copy, size, l, orders, 64, &orders_used, out, 64, &used, &why) ==
          WT_INVALID);
  CHECK(orders_used == UNCHANGED && used == UNCHANGED && why == UNCHANGED);
  CHECK(orders[0] == 0x55 && out[0] == 0x55 && !memcmp(&s, odd, sizeof s));
  CHECK(size == 0 || !memcmp(copy, encoder, size));
  free(copy);
}

static void refused(const wt_connection *c, const uint8_t *bytes, size_t size) {
  uint8_t *encoder = exactly(bytes, size), out[16];
  wt_sending s = request_on(c, 0);
  listed l = list_of(get);
  uint64_t code = UNCHANGED, count = UNCHANGED;
  size_t used = UNCHANGED;
  CHECK(wt_encoder_limits(encoder, size, CAPACITY, 1, out, 16, &used) == WT_INVALID);
  CHECK(wt_encoder_receive(encoder, size, (const uint8_t *)"\x84", 1, &code) == WT_INVALID);
  CHECK(wt_encoder_unacknowledged(encoder, size, &count) == WT_INVALID);
  CHECK(wt_encoder_take_back(encoder, size, 0) == WT_INVALID);
  CHECK(used == UNCHANGED && code == UNCHANGED && count == UNCHANGED);
  CHECK(size == 0 || !memcmp(encoder, bytes, size));
  invalid_message(&s, bytes, size, &l);
  free(encoder);
}

/* The words of an encoder are 8 bytes each: the limit of the capacity and the capacity; how many entries
   were evicted, and how many the peer knows of; the fault, how many bytes are held and how many entries
   there are; how many streams may be blocked; the three of the policy; and how many sections are not
   acknowledged. Then come the sections, of 3 words, and the entries. */
static void wrong_bytes(void) {
  static const struct {
    size_t at;
    uint8_t byte;
  } rows[] = {{7, 16},  {9, 1},   {16, 1},  {24, 2},  {32, 6},  {40, 250}, {48, 2},
              {56, 0},  {80, 0},  {80, 5},  {81, 1},  {87, 11}, {88, 2},   {95, 1},
              {104, 2}, {112, 1}, {120, 250}};
  encoding e = begin_limited();
  wt_sending s = request_on(&e.connection, 0), odd;
  listed l = list_of(get);
  size_t row;
  sends(&e, HEADERS, &s, get, insert_authority, sizeof insert_authority, get_by_table,
        sizeof get_by_table);
  for (row = 0; row < sizeof rows / sizeof *rows; row++) {
    uint8_t *bytes = exactly(e.encoder, e.size);
    CHECK(bytes[rows[row].at] != rows[row].byte);
    bytes[rows[row].at] = rows[row].byte;
    refused(&e.connection, bytes, e.size);
    free(bytes);
  }
  refused(&e.connection, e.encoder, e.size - 1);
  refused(&e.connection, e.encoder, 95);
  refused(&e.connection, NULL, 0);
  /* an encoder, but no struct; and a field that is not within the texts */
  memset(&odd, 0, sizeof odd);
  invalid_message(&odd, e.encoder, e.size, &l);
  s = request_on(&e.connection, 4);
  l.fields[3].value_length++;
  invalid_message(&s, e.encoder, e.size, &l);
  free(e.encoder);
}

static void new_encoders(void) {
  static const uint64_t numbers[] = {UINT64_MAX, UINT64_MAX / 24, UINT64_MAX / 24 + 1,
                                     UINT64_C(1) << 61, 2};
  wt_policy p = {UINT64_MAX, UINT64_MAX, 0};
  uint8_t array[256], same[256];
  size_t i;
  CHECK(WT_ENCODER_SIZE(0, 0) == 107 && WT_ENCODER_SIZE(4096, 64) == 5739 && SIZE == 423);
  memset(array, 0x55, sizeof array), memcpy(same, array, sizeof same);
  for (i = 0; i < sizeof numbers / sizeof *numbers; i++) {
    p.unacknowledged = numbers[i];
    CHECK(wt_encoder_new(&p, array, 154) == WT_INVALID);
  }
  p.unacknowledged = 0;
  CHECK(wt_encoder_new(&p, array, 106) == WT_INVALID && wt_encoder_new(&p, NULL, 0) == WT_INVALID);
  CHECK(!memcmp(array, same, sizeof same));
  CHECK(wt_encoder_new(&p, array, 107) == WT_OK && array[0] == 0 && array[107] == 0x55);
  p.unacknowledged = 2;
  CHECK(wt_encoder_new(&p, array, 155) == WT_OK && array[80] == 2 && array[155] == 0x55);
}

/* The capacity is the smaller one of the limit and of what the array has room for. */
static void capacities(void) {
  static const struct {
    size_t size;
    uint64_t limit;
    uint8_t bytes[3];
    size_t length;
  } rows[] = {
      {SIZE, 4096, {0x3f, 0xbd, 0x01}, 3},
      {SIZE, (UINT64_C(1) << 60) - 1, {0x3f, 0xbd, 0x01}, 3},
      {SIZE, 219, {0x3f, 0xbc, 0x01}, 3},
      {SIZE + 500, 220, {0x3f, 0xbd, 0x01}, 3},
      {SIZE - 120, 220, {0x3f, 0x45}, 2}, /* 100 is 31 and 69 */
      {SIZE, 30, {0x3e}, 1},
      {SIZE - 219, 220, {0x21}, 1},
      {SIZE - 220, 220, {0}, 0},
      {SIZE, 0, {0}, 0},
      {SIZE, UINT64_C(1) << 60, {0}, 0},
      {SIZE, UINT64_MAX, {0}, 0},
  };
  size_t row;
  for (row = 0; row < sizeof rows / sizeof *rows; row++) {
    encoding e = begin(&policy, rows[row].size);
    uint8_t *same, out[16];
    size_t used = UNCHANGED;
    limits(&e, rows[row].limit, UINT64_MAX, rows[row].bytes, rows[row].length);
    same = exactly(e.encoder, e.size);
    /* where a capacity was taken, no limits are set again */
    if (rows[row].length > 0) {
      CHECK(wt_encoder_limits(e.encoder, e.size, 0, 0, out, 16, &used) == WT_INVALID);
      CHECK(used == UNCHANGED && !memcmp(same, e.encoder, e.size));
    } else {
      wt_sending s = request_on(&e.connection, 0);
      sends(&e, HEADERS, &s, get, NULL, 0, get_without, sizeof get_without);
      CHECK(!memcmp(same, e.encoder, e.size));
      CHECK(wt_encoder_limits(e.encoder, e.size, 0, 0, out, 16, &used) == WT_OK && used == 0);
    }
    free(same), free(e.encoder);
  }
}

/* What follows the bytes of an encoder is not read, and stays. */
static void rest(void) {
  encoding e = begin_limited(), f = begin_limited();
  wt_sending s = request_on(&e.connection, 0), t = s;
  /* 12 words, 3 of the section, and an entry with the lengths of its two texts */
  size_t end = 96 + 24 + 16 + 10 + 15, i;
  memset(f.encoder + 96, 0xaa, f.size - 96);
  sends(&e, HEADERS, &s, get, insert_authority, sizeof insert_authority, get_by_table,
        sizeof get_by_table);
  sends(&f, HEADERS, &t, get, insert_authority, sizeof insert_authority, get_by_table,
        sizeof get_by_table);
  CHECK(!memcmp(e.encoder, f.encoder, end) && !memcmp(&s, &t, sizeof s));
  CHECK(!memcmp(e.encoder + end - 25, ":authoritywww.example.com", 25));
  for (i = end; i < e.size; i++) CHECK(e.encoder[i] == 0x55 && f.encoder[i] == 0xaa);
  receives(&f, "\x80", 1);
  CHECK(!memcmp(f.encoder + 96 + 16, ":authoritywww.example.com", 25) && open_sections(&f) == 0);
  free(e.encoder), free(f.encoder);
}

void test_sending_tables(void) {
  appendix();
  taken_back();
  counted();
  cut();
  faults();
  refused_messages();
  wrong_bytes();
  new_encoders();
  capacities();
  rest();
}
