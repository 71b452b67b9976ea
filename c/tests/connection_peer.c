/* The settings of the peer as values, connections that resume a session (RFC 9114, section 7.2.4.2;
   RFC 9204, section 3.2.3; RFC 9297, section 2.1.1), GOAWAY (RFC 9114, sections 5.2 and 7.2.6), and
   requests that are reset before their answer (RFC 9114, section 10.5). */
#include "connection.h"

static const wt_peer_settings defaults = {0, UINT64_MAX, 0, 0, 0, 0, 0, 0, 0, 0, {0, 0}};

static wt_peer_settings settings_of(const wt_connection *c) {
  wt_peer_settings s;
  memset(&s, 0xff, sizeof s);
  CHECK(wt_connection_settings(c, &s) == WT_OK);
  return s;
}

/* Those of Chromium 156, and each one with a name. */
static void values(void) {
  static const uint8_t all[] = {0x00, 0x04, 0x1f, 0x01, 0x0a, 0x06, 0x0b, 0x07, 0x0c, 0x08, 0x01, 0x33,
                                0x01, 0xab, 0x60, 0x37, 0x42, 0x01, 0xc0, 0x00, 0x00, 0x00, 0xc6, 0x71,
                                0x70, 0x6a, 0x0d, 0x94, 0xe9, 0xcd, 0x29, 0x0e, 0x21, 0x0f};
  static const wt_peer_settings named = {10, 11, 12, 13, 14, 1, 1, 1, 1, 0, {0, 0}};
  static const wt_peer_settings chromium = {65536, 16384, 100, 16, 0, 0, 1, 1, 1, 0, {0, 0}};
  wt_connection c = connection_of(WT_SIDE_SERVER, 1), other;
  wt_peer_settings s = settings_of(&c), same;
  CHECK(!memcmp(&s, &defaults, sizeof s));
  configure(&c, 2, chromium_control, sizeof chromium_control);
  s = settings_of(&c);
  CHECK(!memcmp(&s, &chromium, sizeof s));
  c = connection_of(WT_SIDE_CLIENT, 1);
  configure(&c, 3, all, sizeof all);
  s = settings_of(&c);
  CHECK(!memcmp(&s, &named, sizeof s));
  memset(&other, 0xff, sizeof other);
  memset(&s, 0x55, sizeof s);
  same = s;
  CHECK(wt_connection_settings(&other, &s) == WT_INVALID && !memcmp(&s, &same, sizeof s));
}

/* Reads the server's control stream. Returns the code of the error that ends the connection, or 0. */
static uint64_t code_of(wt_connection *c, const uint8_t *bytes, size_t size) {
  reading *r = (reading *)calloc(1, sizeof *r);
  uint64_t code = 0;
  size_t start = 0, turn;
  if (r == NULL) abort();
  CHECK(wt_stream_accept(c, 3, &r->stream) == WT_OK);
  for (turn = 0; turn < 3; turn++) {
    receive(c, r, bytes + start, size - start, 0);
    start += r->event.consumed;
    if (r->event.kind == WT_EVENT_CONNECTION_ERROR) code = r->event.number;
  }
  free(r);
  return code;
}

static const wt_endpoint client = {WT_SIDE_CLIENT, 1, 1, 0, 65536, 4096, 1200, {0, 0, 0, 0, 0}};

/* The SETTINGS of a session, those of the one that resumes it, and the code of the error. */
static void resumes(void) {
  static const struct {
    uint8_t first[9], second[9];
    uint64_t code;
  } rows[] = {
      {{0, 4, 0}, {0, 4, 0}, 0},
      {{0, 4, 6, 0x01, 9, 0x06, 9, 0x33, 1}, {0, 4, 6, 0x33, 1, 0x06, 9, 0x01, 9}, 0},
      {{0, 4, 2, 0x06, 9}, {0, 4, 2, 0x06, 10}, 0},
      {{0, 4, 2, 0x06, 9}, {0, 4, 2, 0x06, 8}, WT_H3_SETTINGS_ERROR},
      {{0, 4, 2, 0x06, 9}, {0, 4, 0}, WT_H3_SETTINGS_ERROR},
      {{0, 4, 0}, {0, 4, 2, 0x06, 9}, WT_H3_SETTINGS_ERROR},
      {{0, 4, 2, 0x07, 9}, {0, 4, 2, 0x07, 8}, WT_H3_SETTINGS_ERROR},
      {{0, 4, 2, 0x33, 1}, {0, 4, 2, 0x33, 0}, WT_H3_SETTINGS_ERROR},
      {{0, 4, 2, 0x08, 1}, {0, 4, 0}, WT_H3_SETTINGS_ERROR},
      {{0, 4, 2, 0x08, 0}, {0, 4, 2, 0x08, 1}, 0},
      {{0, 4, 5, 0xab, 0x60, 0x37, 0x42, 1}, {0, 4, 0}, WT_H3_SETTINGS_ERROR},
      {{0, 4, 5, 0x94, 0xe9, 0xcd, 0x29, 2}, {0, 4, 5, 0x94, 0xe9, 0xcd, 0x29, 1}, WT_H3_SETTINGS_ERROR},
      {{0, 4, 2, 0x01, 9}, {0, 4, 2, 0x01, 10}, WT_QPACK_DECODER_STREAM_ERROR},
      {{0, 4, 2, 0x01, 0}, {0, 4, 2, 0x01, 9}, 0},
  };
  size_t i;
  for (i = 0; i < sizeof rows / sizeof rows[0]; i++) {
    size_t first = 3 + (size_t)rows[i].first[2], second = 3 + (size_t)rows[i].second[2];
    wt_connection c = connection_of(WT_SIDE_CLIENT, 1), d;
    wt_peer_settings kept, s;
    CHECK(code_of(&c, rows[i].first, first) == 0);
    kept = settings_of(&c);
    CHECK(kept.came == 1);
    memset(&d, 0xff, sizeof d);
    CHECK(wt_connection_resuming(WT_ABI, &client, &kept, &d) == WT_OK);
    s = settings_of(&d);
    CHECK(s.came == 0);
    s.came = 1;
    CHECK(!memcmp(&s, &kept, sizeof s) && wt_connection_allows_sessions(&d) == 0);
    CHECK(code_of(&d, rows[i].second, second) == rows[i].code);
    /* no SETTINGS had come: nothing is remembered, and a server's usual SETTINGS are no error */
    s.came = 0;
    CHECK(wt_connection_resuming(WT_ABI, &client, &s, &d) == WT_OK);
    CHECK(wt_connection_new(WT_ABI, &client, &c) == WT_OK && !memcmp(&c, &d, sizeof c));
    s = settings_of(&d);
    CHECK(!memcmp(&s, &defaults, sizeof s));
    CHECK(code_of(&d, rows[i].second, second) == 0);
    /* the server did not accept early data */
    CHECK(wt_connection_resuming(WT_ABI, &client, &kept, &d) == WT_OK);
    CHECK(wt_early_data_refused(&d) == WT_OK);
    s = settings_of(&d);
    CHECK(!memcmp(&s, &defaults, sizeof s));
    CHECK(code_of(&d, rows[i].second, second) == 0);
    s = settings_of(&d);
    CHECK(wt_early_data_refused(&d) == WT_OK);
    kept = settings_of(&d);
    CHECK(s.came == 1 && !memcmp(&s, &kept, sizeof s));
  }
}

/* The value of a setting is below 2^62 (RFC 9114, section 7.2.4; RFC 9000, section 16). */
static void numbers(void) {
  static const struct {
    uint64_t number;
    int value, limit;
  } rows[] = {
      {0, WT_OK, WT_OK},
      {(UINT64_C(1) << 62) - 1, WT_OK, WT_OK},
      {UINT64_C(1) << 62, WT_INVALID, WT_INVALID},
      {UINT64_C(1) << 63, WT_INVALID, WT_INVALID},
      {UINT64_MAX - 1, WT_INVALID, WT_INVALID},
      {UINT64_MAX, WT_INVALID, WT_OK},
  };
  size_t i;
  int which, came;
  for (i = 0; i < sizeof rows / sizeof rows[0]; i++) {
    for (which = 0; which < 5; which++) {
      for (came = 0; came < 2; came++) {
        wt_peer_settings s = defaults;
        wt_connection c;
        s.came = (uint8_t)came;
        if (which == 0) s.qpack_max_table_capacity = rows[i].number;
        if (which == 1) s.max_field_section_size = rows[i].number;
        if (which == 2) s.qpack_blocked_streams = rows[i].number;
        if (which == 3) s.webtransport_max_sessions = rows[i].number;
        if (which == 4) s.wt_max_sessions = rows[i].number;
        CHECK(wt_connection_resuming(WT_ABI, &client, &s, &c) ==
              (which == 1 ? rows[i].limit : rows[i].value));
      }
    }
  }
}

static void refused(void) {
  wt_connection c, same, fresh = connection_of(WT_SIDE_SERVER, 1);
  wt_endpoint bad = client;
  int i;
  memset(&c, 0xff, sizeof c);
  same = c;
  CHECK(wt_early_data_refused(&c) == WT_INVALID);
  CHECK(wt_connection_resuming(WT_ABI + 1, &client, &defaults, &c) == WT_INVALID);
  bad.side = 2;
  CHECK(wt_connection_resuming(WT_ABI, &bad, &defaults, &c) == WT_INVALID);
  for (i = 0; i < 7; i++) {
    wt_peer_settings s = defaults;
    if (i == 0) s.enable_connect_protocol = 2;
    if (i == 1) s.h3_datagram = 2;
    if (i == 2) s.enable_webtransport = 2;
    if (i == 3) s.came = 2;
    if (i == 4) s.reserved_half = 1;
    if (i == 5) s.reserved[0] = 1;
    if (i == 6) s.reserved[1] = 1;
    CHECK(wt_connection_resuming(WT_ABI, &client, &s, &c) == WT_INVALID);
  }
  CHECK(!memcmp(&c, &same, sizeof c));
  /* at a server it begins a connection */
  bad = client, bad.side = WT_SIDE_SERVER, bad.extended = 1;
  CHECK(wt_connection_resuming(WT_ABI, &bad, &defaults, &c) == WT_OK);
  CHECK(!memcmp(&c, &fresh, sizeof c));
}

static void goaway(void) {
  static const uint8_t longest[] = {0x07, 0x08, 0xff, 0xff, 0xff, 0xff, 0xff, 0xff, 0xff, 0xfc};
  static const uint8_t shortest[] = {0x07, 0x01, 0x04};
  static const uint64_t no_request[] = {1, 2, 3, 5, UINT64_C(1) << 62, UINT64_MAX};
  uint64_t last = WT_NO_GOAWAY;
  uint8_t out[10], same[10];
  size_t used = UNCHANGED, i;
  memset(out, 0x55, sizeof out);
  memcpy(same, out, sizeof out);
  for (i = 0; i < 6; i++)
    CHECK(wt_goaway_write(WT_SIDE_SERVER, no_request[i], &last, out, sizeof out, &used) ==
          WT_INVALID);
  CHECK(wt_goaway_write(2, 4, &last, out, sizeof out, &used) == WT_INVALID);
  CHECK(wt_goaway_write(WT_SIDE_CLIENT, UINT64_C(1) << 62, &last, out, sizeof out, &used) ==
        WT_INVALID);
  CHECK(used == UNCHANGED && last == WT_NO_GOAWAY && !memcmp(out, same, sizeof out));
  CHECK(wt_goaway_write(WT_SIDE_SERVER, (UINT64_C(1) << 62) - 4, &last, out, 9, &used) ==
        WT_BUFFER_TOO_SMALL);
  CHECK(used == 10 && last == WT_NO_GOAWAY && !memcmp(out, same, sizeof out));
  CHECK(wt_goaway_write(WT_SIDE_SERVER, (UINT64_C(1) << 62) - 4, &last, NULL, 0, &used) ==
        WT_BUFFER_TOO_SMALL);
  CHECK(wt_goaway_write(WT_SIDE_SERVER, (UINT64_C(1) << 62) - 4, &last, out, 10, &used) == WT_OK);
  CHECK(used == 10 && last == (UINT64_C(1) << 62) - 4 && !memcmp(out, longest, 10));
  CHECK(wt_goaway_write(WT_SIDE_SERVER, 4, &last, out, 10, &used) == WT_OK);
  CHECK(used == 3 && last == 4 && !memcmp(out, shortest, 3) && out[3] == 0xff);
  CHECK(wt_goaway_write(WT_SIDE_SERVER, 8, &last, out, 10, &used) == WT_INVALID && last == 4);
  CHECK(wt_goaway_write(WT_SIDE_SERVER, 4, &last, out, 10, &used) == WT_OK && last == 4);
  CHECK(wt_goaway_write(WT_SIDE_SERVER, 0, &last, out, 10, &used) == WT_OK && last == 0);
  last = WT_NO_GOAWAY;
  CHECK(wt_goaway_write(WT_SIDE_CLIENT, 5, &last, out, 10, &used) == WT_OK && last == 5);
  CHECK(wt_goaway_write(WT_SIDE_CLIENT, 6, &last, out, 10, &used) == WT_INVALID && last == 5);
}

/* A client reads a server's control stream with GOAWAY, and knows what was not processed. */
static void goaway_is_read(void) {
  uint8_t bytes[16] = {0x00, 0x04, 0x00};
  uint64_t last = WT_NO_GOAWAY;
  size_t used;
  wt_connection c = connection_of(WT_SIDE_CLIENT, 1);
  CHECK(wt_goaway_write(WT_SIDE_SERVER, 8, &last, bytes + 3, sizeof bytes - 3, &used) == WT_OK);
  configure(&c, 3, bytes, 3 + used);
  CHECK(wt_connection_unprocessed(&c, 4) == 0 && wt_connection_unprocessed(&c, 8) == 1);
}

/* Answers, and then resets that may be, of which the next one is too many. */
static void budgets(void) {
  static const struct {
    uint64_t excess, answers, resets;
  } rows[] = {{100, 0, 100}, {100, 1, 101}, {3, 150, 153}, {0, 0, 0}, {0, 2, 2}};
  size_t i, n;
  for (i = 0; i < sizeof rows / sizeof rows[0]; i++) {
    wt_request_budget b = {rows[i].excess, 0, 0}, same;
    uint64_t code = UNCHANGED;
    for (n = 0; n < rows[i].answers; n++) CHECK(wt_request_answered(&b) == WT_OK);
    for (n = 0; n < rows[i].resets; n++) CHECK(wt_request_reset(&b, &code) == WT_OK);
    CHECK(code == UNCHANGED && b.answers == rows[i].answers && b.resets == rows[i].resets);
    CHECK(wt_request_reset(&b, &code) == WT_ERROR && code == WT_H3_EXCESSIVE_LOAD);
    same = b, code = UNCHANGED;
    CHECK(wt_request_answered(&b) == WT_OK && !memcmp(&b, &same, sizeof b));
    CHECK(wt_request_reset(&b, &code) == WT_ERROR && code == WT_H3_EXCESSIVE_LOAD &&
          !memcmp(&b, &same, sizeof b));
  }
}

void test_connection_peer(void) {
  values();
  resumes();
  numbers();
  refused();
  goaway();
  goaway_is_read();
  budgets();
}
