/* What tests of connections have in common. */
#include "connection.h"

const uint8_t chromium_control[63] = {
    0x00, 0x04, 0x32, 0x01, 0x80, 0x01, 0x00, 0x00, 0x06, 0x80, 0x00, 0x40, 0x00, 0x07, 0x40, 0x64,
    0x33, 0x01, 0x80, 0xff, 0xd2, 0x77, 0x01, 0xab, 0x60, 0x37, 0x42, 0x01, 0xc0, 0x00, 0x00, 0x00,
    0xc6, 0x71, 0x70, 0x6a, 0x10, 0xc0, 0x00, 0x00, 0x18, 0x89, 0xc2, 0x49, 0xb7, 0xc0, 0x00, 0x00,
    0x00, 0xb6, 0x10, 0xa4, 0xb3, 0xc0, 0x00, 0x00, 0x14, 0x8d, 0x8f, 0xcb, 0xdc, 0x01, 0xcd};

const uint8_t session_request[34] = {0x01, 0x20, 0x00, 0x00, 0xcf, 0xd7, 0xc1, 0x50, 0x01,
                                     0x61, 0x27, 0x02, 0x3a, 0x70, 0x72, 0x6f, 0x74, 0x6f,
                                     0x63, 0x6f, 0x6c, 0x0c, 0x77, 0x65, 0x62, 0x74, 0x72,
                                     0x61, 0x6e, 0x73, 0x70, 0x6f, 0x72, 0x74};

wt_connection connection_of(uint8_t side, uint8_t webtransport) {
  wt_connection c;
  wt_endpoint endpoint = {side, webtransport, webtransport, 1, 65536, 4096, 1200, {0, 0, 0, 0, 0}};
  memset(&c, 0xff, sizeof c);
  CHECK(wt_connection_new(WT_ABI, &endpoint, &c) == WT_OK);
  return c;
}

int receive(wt_connection *c, reading *r, const uint8_t *bytes, size_t size, int fin) {
  uint8_t *copy = exactly(bytes, size);
  int answer;
  memset(&r->event, 0xff, sizeof r->event);
  answer = wt_receive(c, &r->stream, r->held, sizeof r->held, NULL, 0, copy, size, (uint8_t)fin,
                      &r->event, r->fields, 64, r->out, sizeof r->out);
  CHECK(answer == WT_OK);
  CHECK(r->event.consumed <= size && r->event.offset + r->event.length <= size);
  CHECK(r->event.length == 0 || r->event.offset + r->event.length == r->event.consumed);
  CHECK(r->event.reserved[0] == 0 && r->event.reserved[3] == 0);
  free(copy);
  return answer;
}

void configure(wt_connection *c, uint64_t id, const uint8_t *bytes, size_t size) {
  reading *r = (reading *)calloc(1, sizeof *r);
  size_t start = 0, turn;
  if (r == NULL) abort();
  CHECK(wt_stream_accept(c, id, &r->stream) == WT_OK);
  for (turn = 0; turn < 9; turn++) {
    receive(c, r, bytes + start, size - start, 0);
    start += r->event.consumed;
  }
  CHECK(start == size);
  free(r);
}

reading *request_session(wt_connection *c, uint64_t id) {
  reading *r = (reading *)calloc(1, sizeof *r);
  uint32_t waits;
  uint64_t session;
  if (r == NULL) abort();
  CHECK(wt_stream_accept(c, id, &r->stream) == WT_OK);
  receive(c, r, session_request, sizeof session_request, 0);
  CHECK(r->event.kind == WT_EVENT_OPENED && r->event.detail == WT_PURPOSE_MESSAGE &&
        r->event.consumed == 0);
  receive(c, r, session_request, sizeof session_request, 0);
  CHECK(r->event.kind == WT_EVENT_SESSION_REQUESTED && r->event.consumed == sizeof session_request);
  CHECK(wt_stream_waits(&r->stream, &waits, &session) == WT_OK && waits == WT_WAITS_ANSWER &&
        session == 0);
  return r;
}
