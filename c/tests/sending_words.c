/* Structs that no call made, how a message is begun, and the names of reasons. */
#include "sending.h"

static const int calls[] = {HEADERS, TRAILERS, DATA,  UNIDIRECTIONAL, BIDIRECTIONAL,
                            DATAGRAM, DRAIN,    CLOSE};

/* Every call with a struct that is not valid: nothing changes. */
static void refused(const wt_sending *odd) {
  wt_sending s = *odd;
  uint8_t out[256];
  size_t used = UNCHANGED, i;
  uint32_t why = UNCHANGED;
  uint64_t owed = UNCHANGED;
  for (i = 0; i < sizeof calls / sizeof calls[0]; i++) {
    sent x = {calls[i], ":status 200\n", 1, ""};
    CHECK(make(&x, &s, out, sizeof out, &used, &why) == WT_INVALID);
  }
  CHECK(wt_sending_sent(&s, 0, &why) == WT_INVALID && wt_sending_finish(&s, &why) == WT_INVALID);
  CHECK(wt_sending_connected(&s, &why) == WT_INVALID && wt_sending_owed(&s, &owed) == WT_INVALID);
  CHECK(why == UNCHANGED && used == UNCHANGED && owed == UNCHANGED && !memcmp(&s, odd, sizeof s));
}

static void invalid(void) {
  wt_connection c = connection_of(WT_SIDE_SERVER, 1);
  wt_sending s = response_on(&c, 0, WT_ASKED_OTHER), odd;
  size_t at;
  memset(&odd, 0, sizeof odd);
  refused(&odd);
  memset(&odd, 0xff, sizeof odd);
  refused(&odd);
  for (at = 7; at < 12; at++) {
    odd = s, odd.words[at] = 1;
    refused(&odd);
  }
  odd = s, odd.words[0] = 1; /* the ID */
  refused(&odd);
  odd = s, odd.words[0] = UINT64_C(1) << 62;
  refused(&odd);
}

/* Each word is changed in each bit: the call refuses it, or goes on as with another state. */
static void changed(void) {
  wt_connection c = connection_of(WT_SIDE_SERVER, 1);
  wt_sending s = response_on(&c, 0, WT_ASKED_SESSION), odd;
  wt_control k, other;
  size_t at, bit, i, used, refusals = 0;
  uint8_t out[256];
  uint32_t why;
  CHECK(wt_control_new(&c, &k) == WT_OK);
  for (bit = 0; bit < 64; bit++) {
    for (at = 0; at < 12; at++) {
      for (i = 0; i < sizeof calls / sizeof calls[0]; i++) {
        sent x = {calls[i], ":status 200\n", 1, ""};
        int answer;
        odd = s, odd.words[at] ^= UINT64_C(1) << bit;
        answer = make(&x, &odd, out, sizeof out, &used, &why);
        CHECK(answer == WT_OK || answer == WT_INVALID || answer == WT_REFUSED);
        refusals += answer == WT_INVALID;
      }
    }
    for (at = 0; at < 8; at++) {
      int answer;
      other = k, other.words[at] ^= UINT64_C(1) << bit;
      answer = wt_control_goaway(&other, 0, out, sizeof out, &used, &why);
      CHECK(answer == WT_OK || answer == WT_INVALID || answer == WT_REFUSED);
      other = k, other.words[at] ^= UINT64_C(1) << bit;
      answer = wt_control_settings(&other, NULL, 0, out, sizeof out, &used, &why);
      CHECK(answer == WT_OK || answer == WT_INVALID || answer == WT_REFUSED);
      CHECK(at < 3 || answer == WT_INVALID);
    }
  }
  CHECK(refusals > 5 * 64 * sizeof calls / sizeof calls[0]);
  memset(&other, 0, sizeof other);
  CHECK(wt_control_settings(&other, NULL, 0, out, sizeof out, &used, &why) == WT_INVALID);
}

/* A field that is not within the texts. */
static void outside(void) {
  static const wt_field f = {0, 7, 7, 4};
  wt_connection c = connection_of(WT_SIDE_SERVER, 1);
  wt_sending s = response_on(&c, 0, WT_ASKED_OTHER), same = s;
  uint8_t out[16], *texts = exactly(":status200", 10);
  size_t used = UNCHANGED;
  uint32_t why = UNCHANGED;
  CHECK(wt_sending_headers(&s, &f, 1, texts, 10, out, sizeof out, &used, &why) == WT_INVALID);
  CHECK(wt_sending_trailers(&s, &f, 1, texts, 10, out, sizeof out, &used, &why) == WT_INVALID);
  CHECK(used == UNCHANGED && why == UNCHANGED && !memcmp(&s, &same, sizeof s));
  free(texts);
}

/* Connections on which no message is begun: of the other side, after GOAWAY, and after an error. */
static void begun(void) {
  static const uint8_t goaway[] = {0x00, 0x04, 0x00, 0x07, 0x01, 0x08};
  wt_connection c = connection_of(WT_SIDE_CLIENT, 1), d = connection_of(WT_SIDE_SERVER, 1), odd;
  wt_sending s, same;
  wt_event e;
  uint32_t why = UNCHANGED;
  uint64_t id;
  memset(&odd, 0xff, sizeof odd);
  memset(&s, 0x55, sizeof s);
  same = s;
  for (id = 1; id < 4; id++) {
    CHECK(wt_sending_request(&c, id, &s, &why) == WT_INVALID);
    CHECK(wt_sending_response(&d, id, 0, &s, &why) == WT_INVALID);
  }
  CHECK(wt_sending_request(&c, UINT64_C(1) << 62, &s, &why) == WT_INVALID);
  CHECK(wt_sending_response(&d, UINT64_C(1) << 62, 0, &s, &why) == WT_INVALID);
  CHECK(wt_sending_response(&d, 0, 4, &s, &why) == WT_INVALID);
  CHECK(wt_sending_request(&d, 0, &s, &why) == WT_INVALID);
  CHECK(wt_sending_response(&c, 0, 0, &s, &why) == WT_INVALID);
  CHECK(wt_sending_request(&odd, 0, &s, &why) == WT_INVALID);
  CHECK(wt_sending_response(&odd, 0, 0, &s, &why) == WT_INVALID);
  CHECK(why == UNCHANGED && !memcmp(&s, &same, sizeof s));
  configure(&c, 3, goaway, sizeof goaway);
  CHECK(wt_sending_request(&c, 4, &s, &why) == WT_REFUSED && why == WT_SEND_UNEXPECTED);
  why = UNCHANGED;
  CHECK(wt_datagram_receive(&d, NULL, 0, &e) == WT_OK && e.kind == WT_EVENT_CONNECTION_ERROR);
  CHECK(wt_sending_response(&d, 0, 0, &s, &why) == WT_REFUSED && why == WT_SEND_UNEXPECTED);
  c = connection_of(WT_SIDE_CLIENT, 1);
  CHECK(wt_datagram_receive(&c, NULL, 0, &e) == WT_OK && e.kind == WT_EVENT_CONNECTION_ERROR);
  CHECK(wt_sending_request(&c, 4, &s, &why) == WT_REFUSED && why == WT_SEND_UNEXPECTED);
  CHECK(!memcmp(&s, &same, sizeof s));
}

static void names(void) {
  static const struct {
    uint32_t why;
    const char *name;
  } rows[] = {
      {WT_SEND_UNEXPECTED, "Unexpected"},     {WT_SEND_DATA_MISSING, "DataMissing"},
      {WT_SEND_DATA_EXCEEDED, "DataExceeded"}, {WT_SEND_EMPTY_DATA, "EmptyData"},
      {WT_SEND_TOO_LARGE, "TooLarge"},         {WT_SEND_TOO_MANY_INTERIM, "TooManyInterim"},
      {WT_SEND_INVALID_ID, "InvalidId"},       {WT_SEND_ID_RISES, "IdRises"},
      {WT_SEND_UNSUPPORTED, "Unsupported"},    {WT_RULE_INVALID_NAME, "InvalidName"},
      {WT_RULE_INVALID_TE, "InvalidTe"},       {WT_RULE_MISSING_PATH, "MissingPath"},
      {WT_RULE_MISSING_HEAD, "MissingHead"},   {WT_RULE_CONTENT_TOO_SHORT, "ContentTooShort"},
  };
  char out[32];
  size_t used = UNCHANGED, i;
  uint32_t why, named = 0;
  for (i = 0; i < sizeof rows / sizeof rows[0]; i++) {
    size_t size = strlen(rows[i].name);
    CHECK(wt_send_reason_name(rows[i].why, out, size - 1, &used) == WT_BUFFER_TOO_SMALL);
    CHECK(used == size);
    CHECK(wt_send_reason_name(rows[i].why, out, size, &used) == WT_OK && used == size);
    CHECK(!memcmp(out, rows[i].name, size));
  }
  for (why = 0; why < 300; why++)
    named += wt_send_reason_name(why, out, sizeof out, &used) == WT_OK;
  CHECK(named == 26 + 9);
  used = UNCHANGED;
  CHECK(wt_send_reason_name(0, out, sizeof out, &used) == WT_INVALID && used == UNCHANGED);
  CHECK(wt_send_reason_name(UINT32_MAX, out, sizeof out, &used) == WT_INVALID);
}

void test_sending_words(void) {
  invalid();
  changed();
  outside();
  begun();
  names();
}
