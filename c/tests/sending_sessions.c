/* What is sent of sessions and on the control stream. The bytes are those of
   draft-ietf-webtrans-http3-02, sections 4 and 5, draft-ietf-webtrans-http3-07, section 4.6, RFC 9297,
   section 2.1, and RFC 9114, section 7.2. */
#include "sending.h"

static const sent uni = {UNIDIRECTIONAL, NULL, 0, NULL}, bi = {BIDIRECTIONAL, NULL, 0, NULL};
static const sent datagram = {DATAGRAM, NULL, 0, NULL}, drain = {DRAIN, NULL, 0, NULL};
static const sent bye = {CLOSE, NULL, 7, "bye"}, content = {DATA, NULL, 1, NULL};
static const sent request = {
    HEADERS, ":method CONNECT\n:scheme https\n:authority a\n:path /\n:protocol webtransport\n", 0, NULL};
static const sent ok = {HEADERS, ":status 200\n", 0, NULL}, no = {HEADERS, ":status 404\n", 0, NULL};
static const sent trailers = {TRAILERS, "x-content-type-options nosniff\n", 0, NULL};

static void is_closed(wt_sending *s) {
  refuses(&uni, s, WT_SEND_UNEXPECTED);
  refuses(&bi, s, WT_SEND_UNEXPECTED);
  refuses(&datagram, s, WT_SEND_UNEXPECTED);
  refuses(&drain, s, WT_SEND_UNEXPECTED);
  refuses(&bye, s, WT_SEND_UNEXPECTED);
}

/* An open session on stream 4, or on one whose ID takes eight bytes. */
static void is_open(wt_sending *s) {
  writes(&uni, s, "\x40\x54\x04", 3);
  writes(&bi, s, "\x40\x41\x04", 3);
  writes(&datagram, s, "\x01", 1);
  writes(&drain, s, "\x00\x05\x80\x00\x78\xae\x00", 7);
  refuses(&content, s, WT_SEND_UNEXPECTED);
  refuses(&trailers, s, WT_SEND_UNEXPECTED);
  writes(&bye, s, "\x00\x0a\x68\x43\x07\x00\x00\x00\x07" "bye", 12);
  is_closed(s);
  refuses_end(s, WT_SEND_UNEXPECTED);
}

static void server(void) {
  static const sent hints = {HEADERS, ":status 103\n", 0, NULL};
  wt_connection c = connection_of(WT_SIDE_SERVER, 1);
  wt_sending s = response_on(&c, 4, WT_ASKED_SESSION);
  uint32_t why = UNCHANGED;
  is_closed(&s);
  writes(&hints, &s, "\x01\x03\x00\x00\xd8", 5);
  is_closed(&s);
  writes(&ok, &s, "\x01\x03\x00\x00\xd9", 5);
  CHECK(wt_sending_connected(&s, &why) == WT_REFUSED && why == WT_SEND_UNEXPECTED);
  is_open(&s);
  s = response_on(&c, 4, WT_ASKED_SESSION);
  writes(&no, &s, "\x01\x03\x00\x00\xdb", 5);
  is_closed(&s);
  writes(&content, &s, "\x00\x01", 2);
  s = response_on(&c, (UINT64_C(1) << 62) - 4, WT_ASKED_SESSION);
  writes(&ok, &s, "\x01\x03\x00\x00\xd9", 5);
  writes(&uni, &s, "\x40\x54\xff\xff\xff\xff\xff\xff\xff\xfc", 10);
  writes(&bi, &s, "\x40\x41\xff\xff\xff\xff\xff\xff\xff\xfc", 10);
  writes(&datagram, &s, "\xcf\xff\xff\xff\xff\xff\xff\xff", 8);
}

/* A client sends a request, which a server reads, and nothing of the session before the answer. */
static void client(void) {
  wt_connection c = connection_of(WT_SIDE_CLIENT, 1), d = connection_of(WT_SIDE_SERVER, 1);
  static const uint8_t settings[] = {0x00, 0x04, 0x09, 0x08, 0x01, 0x33, 0x01,
                                     0xab, 0x60, 0x37, 0x42, 0x01};
  reading *r = (reading *)calloc(1, sizeof *r);
  wt_sending s;
  uint8_t out[256];
  size_t used;
  uint32_t why = UNCHANGED;
  if (r == NULL) abort();
  configure(&c, 3, settings, sizeof settings);
  configure(&d, 2, chromium_control, sizeof chromium_control);
  s = request_on(&c, 4);
  CHECK(make(&request, &s, out, sizeof out, &used, &why) == WT_OK);
  CHECK(wt_stream_accept(&d, 4, &r->stream) == WT_OK);
  receive(&d, r, out, used, 0);
  receive(&d, r, out, used, 0);
  CHECK(r->event.kind == WT_EVENT_SESSION_REQUESTED && r->event.consumed == used);
  CHECK(r->event.fields == 5 && r->event.used == 64);
  CHECK(!memcmp(r->out, ":methodCONNECT:schemehttps:authoritya:path/:protocolwebtransport", 64));
  is_closed(&s);
  refuses(&content, &s, WT_SEND_UNEXPECTED);
  CHECK(wt_sending_connected(&s, &why) == WT_OK);
  is_open(&s);
  free(r);
}

/* A reason has at most 1,024 bytes, and is UTF-8. */
static void reasons(void) {
  wt_connection c = connection_of(WT_SIDE_SERVER, 1);
  wt_sending s = response_on(&c, 0, WT_ASKED_SESSION), same;
  uint8_t reason[1025], out[1200];
  size_t used = UNCHANGED;
  uint32_t why = UNCHANGED;
  memset(reason, 'a', sizeof reason);
  writes(&ok, &s, "\x01\x03\x00\x00\xd9", 5);
  same = s;
  CHECK(wt_sending_close(&s, 0, reason, 1025, out, sizeof out, &used, &why) == WT_REFUSED);
  CHECK(why == WT_SEND_TOO_LARGE && used == UNCHANGED);
  reason[1023] = 0xff;
  why = UNCHANGED;
  CHECK(wt_sending_close(&s, 0, reason, 1024, out, sizeof out, &used, &why) == WT_INVALID);
  CHECK(why == UNCHANGED && used == UNCHANGED && !memcmp(&s, &same, sizeof s));
  reason[1023] = 'a';
  CHECK(wt_sending_close(&s, 0, reason, 1024, out, sizeof out, &used, &why) == WT_OK);
  CHECK(used == 1035 && !memcmp(out, "\x00\x44\x08\x68\x43\x44\x04\x00\x00\x00\x00" "a", 12));
  s = same;
  CHECK(wt_sending_close(&s, 1, NULL, 0, out, sizeof out, &used, &why) == WT_OK);
  CHECK(used == 9 && !memcmp(out, "\x00\x07\x68\x43\x04\x00\x00\x00\x01", 9));
}

static int goaway(wt_control *s, uint64_t id, uint32_t *why) {
  wt_control same = *s;
  uint8_t out[10];
  size_t used = UNCHANGED;
  int answer = wt_control_goaway(s, id, out, sizeof out, &used, why);
  CHECK((answer == WT_OK) == (used <= sizeof out));
  CHECK(answer == WT_OK || !memcmp(s, &same, sizeof same));
  return answer;
}

/* SETTINGS first and once, and GOAWAY that never rises. */
static void control(void) {
  static const wt_setting settings[] = {{0x33, 1}, {0x06, 64}, {0x14e9cd29, 1}};
  static const uint8_t bytes[] = {0x00, 0x04, 0x0a, 0x33, 0x01, 0x06, 0x40, 0x40,
                                  0x94, 0xe9, 0xcd, 0x29, 0x01};
  static const uint8_t last[] = {0x07, 0x08, 0xff, 0xff, 0xff, 0xff, 0xff, 0xff, 0xff, 0xfc};
  wt_connection c = connection_of(WT_SIDE_SERVER, 1);
  wt_control s, same;
  uint8_t out[32];
  size_t used = UNCHANGED;
  uint32_t why = UNCHANGED;
  CHECK(wt_control_new(&c, &s) == WT_OK);
  CHECK(goaway(&s, 0, &why) == WT_REFUSED && why == WT_SEND_UNEXPECTED);
  same = s;
  CHECK(wt_control_settings(&s, settings, 3, NULL, 0, &used, &why) == WT_BUFFER_TOO_SMALL);
  CHECK(used == 13 && !memcmp(&s, &same, sizeof s));
  CHECK(wt_control_settings(&s, settings, 3, out, 12, &used, &why) == WT_BUFFER_TOO_SMALL);
  CHECK(used == 13 && !memcmp(&s, &same, sizeof s));
  CHECK(wt_control_settings(&s, settings, 3, out, 13, &used, &why) == WT_OK && used == 13);
  CHECK(!memcmp(out, bytes, 13));
  why = UNCHANGED, used = UNCHANGED;
  CHECK(wt_control_settings(&s, settings, 3, out, 13, &used, &why) == WT_REFUSED);
  CHECK(why == WT_SEND_UNEXPECTED && used == UNCHANGED);
  CHECK(wt_control_goaway(&s, (UINT64_C(1) << 62) - 4, out, 9, &used, &why) == WT_BUFFER_TOO_SMALL);
  CHECK(wt_control_goaway(&s, (UINT64_C(1) << 62) - 4, out, 10, &used, &why) == WT_OK);
  CHECK(used == 10 && !memcmp(out, last, 10));
  CHECK(goaway(&s, 6, &why) == WT_REFUSED && why == WT_SEND_INVALID_ID);
  CHECK(goaway(&s, UINT64_C(1) << 62, &why) == WT_INVALID);
  CHECK(goaway(&s, 8, &why) == WT_OK && goaway(&s, 8, &why) == WT_OK);
  CHECK(goaway(&s, 12, &why) == WT_REFUSED && why == WT_SEND_ID_RISES);
  CHECK(goaway(&s, 0, &why) == WT_OK);
}

/* At a client a GOAWAY names a push; settings that a peer would refuse, or more than are read. */
static void settings(void) {
  static const wt_setting http2[] = {{0x02, 1}}, large[] = {{0x21, UINT64_C(1) << 62}};
  static wt_setting many[500];
  wt_connection c = connection_of(WT_SIDE_CLIENT, 1), other;
  wt_control s, same;
  uint8_t out[8];
  size_t used = UNCHANGED, i;
  uint32_t why = UNCHANGED;
  for (i = 0; i < 500; i++) many[i].id = 0x21 + 0x1f * i, many[i].value = UINT64_C(1) << 61;
  CHECK(wt_control_new(&c, &s) == WT_OK);
  same = s;
  CHECK(wt_control_settings(&s, http2, 1, out, 8, &used, &why) == WT_INVALID);
  CHECK(wt_control_settings(&s, large, 1, out, 8, &used, &why) == WT_INVALID);
  CHECK(why == UNCHANGED && used == UNCHANGED);
  CHECK(wt_control_settings(&s, many, 500, out, 8, &used, &why) == WT_REFUSED);
  CHECK(why == WT_SEND_TOO_LARGE && used == UNCHANGED && !memcmp(&s, &same, sizeof s));
  CHECK(wt_control_settings(&s, NULL, 0, out, 8, &used, &why) == WT_OK);
  CHECK(used == 3 && !memcmp(out, "\x00\x04\x00", 3));
  CHECK(goaway(&s, 1, &why) == WT_OK && goaway(&s, 0, &why) == WT_OK);
  CHECK(goaway(&s, 1, &why) == WT_REFUSED && why == WT_SEND_ID_RISES);
  memset(&other, 0xff, sizeof other);
  same = s;
  CHECK(wt_control_new(&other, &s) == WT_INVALID && !memcmp(&s, &same, sizeof s));
}

void test_sending_sessions(void) {
  server();
  client();
  reasons();
  control();
  settings();
}
