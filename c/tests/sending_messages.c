/* Messages that are sent. The bytes are those of RFC 9114, section 7.2, and of RFC 9204, section 4.5
   and appendix A, with the first entry of each name, and values by RFC 7541, appendix B, where that is
   shorter. */
#include "sending.h"

static const sent ok = {HEADERS, ":status 200\n", 0, NULL};
static const sent hints = {HEADERS, ":status 103\n", 0, NULL};
static const sent sniff = {TRAILERS, "x-content-type-options nosniff\n", 0, NULL};
static const sent three = {DATA, NULL, 3, NULL}, two = {DATA, NULL, 2, NULL};
static const sent six = {DATA, NULL, 6, NULL}, none = {DATA, NULL, 0, NULL};
static const sent huge = {DATA, NULL, UINT64_C(1) << 62, NULL};
static const sent largest = {DATA, NULL, (UINT64_C(1) << 62) - 1, NULL};

static void counts(wt_sending *s, uint64_t length) {
  uint32_t why = UNCHANGED;
  CHECK(wt_sending_sent(s, length, &why) == WT_OK && why == UNCHANGED);
}

static void owes(const wt_sending *s, uint64_t length) {
  uint64_t owed = UNCHANGED;
  CHECK(wt_sending_owed(s, &owed) == WT_OK && owed == length);
}

static void ends(wt_sending *s) {
  uint32_t why = UNCHANGED;
  CHECK(wt_sending_finish(s, &why) == WT_OK && why == UNCHANGED);
}

/* An interim response, a final one with content of a stated length, and trailers. */
static void whole(void) {
  static const sent five = {HEADERS, ":status 200\ncontent-length 5\n", 0, NULL};
  static const sent status = {TRAILERS, ":status 200\n", 0, NULL};
  wt_connection c = connection_of(WT_SIDE_SERVER, 1);
  wt_sending s = response_on(&c, 0, WT_ASKED_OTHER);
  writes(&hints, &s, "\x01\x03\x00\x00\xd8", 5);
  refuses(&three, &s, WT_SEND_UNEXPECTED);
  refuses(&sniff, &s, WT_SEND_UNEXPECTED);
  refuses_end(&s, WT_RULE_MISSING_HEAD);
  writes(&five, &s, "\x01\x06\x00\x00\xd9\x54\x01" "5", 8);
  refuses(&ok, &s, WT_SEND_UNEXPECTED);
  refuses(&none, &s, WT_SEND_EMPTY_DATA);
  refuses(&huge, &s, WT_SEND_TOO_LARGE);
  refuses(&six, &s, WT_RULE_CONTENT_TOO_LONG);
  owes(&s, 0);
  writes(&three, &s, "\x00\x03", 2);
  owes(&s, 3);
  refuses(&two, &s, WT_SEND_DATA_MISSING);
  refuses(&sniff, &s, WT_SEND_DATA_MISSING);
  refuses_end(&s, WT_SEND_DATA_MISSING);
  refuses_sent(&s, 4, WT_SEND_DATA_EXCEEDED);
  counts(&s, 1);
  owes(&s, 2);
  counts(&s, 2);
  refuses_end(&s, WT_RULE_CONTENT_TOO_SHORT);
  refuses(&sniff, &s, WT_RULE_CONTENT_TOO_SHORT);
  writes(&two, &s, "\x00\x02", 2);
  counts(&s, 2);
  refuses(&status, &s, WT_RULE_UNKNOWN_PSEUDO_HEADER);
  writes(&sniff, &s, "\x01\x03\x00\x00\xfd", 5);
  refuses(&sniff, &s, WT_SEND_UNEXPECTED);
  refuses(&none, &s, WT_SEND_EMPTY_DATA);
  refuses(&two, &s, WT_SEND_UNEXPECTED);
  ends(&s);
  refuses_end(&s, WT_SEND_UNEXPECTED);
  refuses(&ok, &s, WT_SEND_UNEXPECTED);
}

/* 64 interim responses may come before the final one, and a response to HEAD has no content. */
static void interim(void) {
  wt_connection c = connection_of(WT_SIDE_SERVER, 1);
  wt_sending s = response_on(&c, 4, WT_ASKED_HEAD);
  int i;
  for (i = 0; i < 64; i++) writes(&hints, &s, "\x01\x03\x00\x00\xd8", 5);
  refuses(&hints, &s, WT_SEND_TOO_MANY_INTERIM);
  writes(&ok, &s, "\x01\x03\x00\x00\xd9", 5);
  refuses(&three, &s, WT_RULE_CONTENT_TOO_LONG);
  ends(&s);
}

/* A CONNECT waits for its answer; then its DATA has any length. */
static void tunnel(void) {
  static const sent connect = {HEADERS, ":method CONNECT\n:authority a:1\n", 0, NULL};
  wt_connection c = connection_of(WT_SIDE_CLIENT, 1), d = connection_of(WT_SIDE_SERVER, 1);
  wt_sending s = request_on(&c, 8);
  uint32_t why = UNCHANGED;
  CHECK(wt_sending_connected(&s, &why) == WT_REFUSED && why == WT_SEND_UNEXPECTED);
  writes(&connect, &s, "\x01\x08\x00\x00\xcf\x50\x03" "a:1", 10);
  refuses(&three, &s, WT_SEND_UNEXPECTED);
  why = UNCHANGED;
  CHECK(wt_sending_connected(&s, &why) == WT_OK && why == UNCHANGED);
  CHECK(wt_sending_connected(&s, &why) == WT_REFUSED && why == WT_SEND_UNEXPECTED);
  writes(&largest, &s, "\x00\xff\xff\xff\xff\xff\xff\xff\xff", 9);
  refuses_end(&s, WT_SEND_DATA_MISSING);
  counts(&s, (UINT64_C(1) << 62) - 1);
  refuses(&sniff, &s, WT_SEND_UNEXPECTED);
  ends(&s);
  s = response_on(&d, 8, WT_ASKED_CONNECT);
  writes(&ok, &s, "\x01\x03\x00\x00\xd9", 5);
  refuses(&sniff, &s, WT_SEND_UNEXPECTED);
  writes(&three, &s, "\x00\x03", 2);
}

/* Each rule of a request and of a response, with the only line that breaks it. */
static const struct {
  uint32_t asked; /* of the request; above WT_ASKED_SESSION, this is one */
  uint32_t rule;
  const char *fields;
} rules[] = {
    {9, WT_RULE_INVALID_NAME, ":method GET\n:scheme https\n:authority a\n:path /\nA b\n"},
    {9, WT_RULE_INVALID_NAME, ":method GET\n:scheme https\n:authority a\n:path /\na(b c\n"},
    {9, WT_RULE_INVALID_VALUE, ":method GET\n:scheme https\n:authority a\n:path /\na b\r\n"},
    {9, WT_RULE_INVALID_VALUE, ":method GET\n:scheme https\n:authority a\n:path /\na b \n"},
    {9, WT_RULE_CONNECTION_FIELD,
     ":method GET\n:scheme https\n:authority a\n:path /\ntransfer-encoding chunked\n"},
    {9, WT_RULE_CONNECTION_FIELD,
     ":method GET\n:scheme https\n:authority a\n:path /\nconnection close\n"},
    {9, WT_RULE_INVALID_TE, ":method GET\n:scheme https\n:authority a\n:path /\nte gzip\n"},
    {9, WT_RULE_UNKNOWN_PSEUDO_HEADER,
     ":method GET\n:scheme https\n:authority a\n:path /\n:status 200\n"},
    {9, WT_RULE_LATE_PSEUDO_HEADER, ":method GET\n:scheme https\n:authority a\nb c\n:path /\n"},
    {9, WT_RULE_REPEATED_PSEUDO_HEADER,
     ":method GET\n:scheme https\n:authority a\n:path /\n:path /\n"},
    {9, WT_RULE_INVALID_CONTENT_LENGTH,
     ":method GET\n:scheme https\n:authority a\n:path /\ncontent-length -1\n"},
    {9, WT_RULE_MISSING_METHOD, ":scheme https\n:authority a\n:path /\n"},
    {9, WT_RULE_INVALID_METHOD, ":method G T\n:scheme https\n:authority a\n:path /\n"},
    {9, WT_RULE_MISSING_SCHEME, ":method GET\n:authority a\n:path /\n"},
    {9, WT_RULE_INVALID_SCHEME, ":method GET\n:scheme 1\n:authority a\n:path /\n"},
    {9, WT_RULE_MISSING_PATH, ":method GET\n:scheme https\n:authority a\n"},
    {9, WT_RULE_INVALID_PATH, ":method GET\n:scheme https\n:authority a\n:path b\n"},
    {9, WT_RULE_MISSING_AUTHORITY, ":method GET\n:scheme https\n:path /\n"},
    {9, WT_RULE_INVALID_AUTHORITY, ":method GET\n:scheme https\n:authority u@a\n:path /\n"},
    {9, WT_RULE_CONNECT_WITH_TARGET, ":method CONNECT\n:authority a:1\n:path /\n"},
    {9, WT_RULE_UNEXPECTED_PROTOCOL,
     ":method CONNECT\n:scheme https\n:authority a\n:path /\n:protocol webtransport\n"},
    {WT_ASKED_OTHER, WT_RULE_MISSING_STATUS, "a b\n"},
    {WT_ASKED_OTHER, WT_RULE_INVALID_STATUS, ":status 101\n"},
    {WT_ASKED_OTHER, WT_RULE_INVALID_STATUS, ":status 20\n"},
    {WT_ASKED_OTHER, WT_RULE_INVALID_TE, ":status 200\nte trailers\n"},
    {WT_ASKED_SESSION, WT_RULE_UNEXPECTED_STATUS, ":status 204\n"},
    {WT_ASKED_SESSION, WT_RULE_CONTENT_FIELD, ":status 200\ncontent-type a/b\n"},
    /* RFC 9110, sections 8.6 and 9.3.6: they may be received */
    {WT_ASKED_OTHER, WT_RULE_INVALID_CONTENT_LENGTH, ":status 103\ncontent-length 5\n"},
    {WT_ASKED_HEAD, WT_RULE_INVALID_CONTENT_LENGTH, ":status 204\ncontent-length 5\n"},
    {WT_ASKED_CONNECT, WT_RULE_INVALID_CONTENT_LENGTH, ":status 200\ncontent-length 5\n"},
};

static void broken(void) {
  wt_connection c = connection_of(WT_SIDE_CLIENT, 1), d = connection_of(WT_SIDE_SERVER, 1);
  size_t i;
  for (i = 0; i < sizeof rules / sizeof rules[0]; i++) {
    sent x = {HEADERS, rules[i].fields, 0, NULL};
    wt_sending s = rules[i].asked > WT_ASKED_SESSION ? request_on(&c, 0)
                                                    : response_on(&d, 0, rules[i].asked);
    refuses(&x, &s, rules[i].rule);
  }
}

/* What the SETTINGS of the peer allow: sections of 167 bytes (RFC 9114, section 4.2.2); extended
   CONNECT, but no sessions. */
static void allowed(void) {
  static const uint8_t small[] = {0x00, 0x04, 0x03, 0x06, 0x40, 0xa7};
  static const uint8_t extended[] = {0x00, 0x04, 0x02, 0x08, 0x01};
  static const sent fits = {HEADERS, ":method GET\n:scheme https\n:authority a\n:path /\n", 0, NULL};
  static const sent more = {HEADERS, ":method GET\n:scheme https\n:authority ab\n:path /\n", 0, NULL};
  static const sent session = {
      HEADERS, ":method CONNECT\n:scheme https\n:authority a\n:path /\n:protocol webtransport\n", 0,
      NULL};
  static const sent large = {TRAILERS, "a 12345678901234567890123456789012345678901234567890"
      "123456789012345678901234567890123456789012345678901234567890123456789012345678901234567890\n",
      0, NULL};
  wt_connection c = connection_of(WT_SIDE_CLIENT, 1), d = connection_of(WT_SIDE_CLIENT, 1);
  wt_sending before = request_on(&c, 0), s;
  configure(&c, 3, small, sizeof small);
  s = request_on(&c, 4);
  refuses(&more, &s, WT_SEND_TOO_LARGE);
  writes(&fits, &s, "\x01\x08\x00\x00\xd1\xd7\x50\x01" "a\xc1", 10);
  refuses(&large, &s, WT_SEND_TOO_LARGE);
  writes(&more, &before, "\x01\x09\x00\x00\xd1\xd7\x50\x02" "ab\xc1", 11);
  refuses(&session, &before, WT_SEND_UNEXPECTED);
  configure(&d, 3, extended, sizeof extended);
  s = request_on(&d, 4);
  refuses(&session, &s, WT_SEND_UNSUPPORTED);
}

void test_sending_messages(void) {
  whole();
  interim();
  tunnel();
  broken();
  allowed();
}
