/* What tests of sending have in common. */
#include "sending.h"

listed list_of(const char *lines) {
  listed l;
  memset(&l, 0, sizeof l);
  while (*lines) {
    const char *space = strchr(lines, ' '), *end = strchr(lines, '\n');
    wt_field *f = &l.fields[l.count++];
    f->name_offset = l.used, f->name_length = (size_t)(space - lines);
    f->value_offset = l.used + f->name_length, f->value_length = (size_t)(end - space - 1);
    memcpy(l.texts + l.used, lines, f->name_length);
    memcpy(l.texts + f->value_offset, space + 1, f->value_length);
    l.used += f->name_length + f->value_length;
    lines = end + 1;
  }
  return l;
}

int make(const sent *x, wt_sending *s, uint8_t *out, size_t room, size_t *used, uint32_t *why) {
  listed l = list_of(x->fields ? x->fields : "");
  switch (x->call) {
    case HEADERS:
      return wt_sending_headers(s, l.fields, l.count, l.texts, l.used, out, room, used, why);
    case TRAILERS:
      return wt_sending_trailers(s, l.fields, l.count, l.texts, l.used, out, room, used, why);
    case DATA:
      return wt_sending_data(s, x->number, out, room, used, why);
    case UNIDIRECTIONAL:
      return wt_sending_unidirectional(s, out, room, used, why);
    case BIDIRECTIONAL:
      return wt_sending_bidirectional(s, out, room, used, why);
    case DATAGRAM:
      return wt_sending_datagram(s, out, room, used, why);
    case DRAIN:
      return wt_sending_drain(s, out, room, used, why);
    default:
      return wt_sending_close(s, (uint32_t)x->number, (const uint8_t *)x->reason,
                              strlen(x->reason), out, room, used, why);
  }
}

void writes(const sent *x, wt_sending *s, const void *bytes, size_t size) {
  wt_sending before = *s;
  size_t used = UNCHANGED, i;
  uint32_t why = UNCHANGED;
  uint8_t *out = (uint8_t *)malloc(size);
  if (out == NULL) abort();
  memset(out, 0x55, size);
  CHECK(make(x, s, NULL, 0, &used, &why) == WT_BUFFER_TOO_SMALL && used == size);
  used = UNCHANGED;
  CHECK(make(x, s, out, size - 1, &used, &why) == WT_BUFFER_TOO_SMALL && used == size);
  for (i = 0; i < size; i++) CHECK(out[i] == 0x55);
  CHECK(!memcmp(&before, s, sizeof before));
  used = UNCHANGED;
  CHECK(make(x, s, out, size, &used, &why) == WT_OK && used == size);
  CHECK(!memcmp(out, bytes, size) && why == UNCHANGED);
  free(out);
}

void refuses(const sent *x, wt_sending *s, uint32_t why) {
  wt_sending before = *s;
  size_t used = UNCHANGED;
  uint32_t said = UNCHANGED;
  uint8_t out[2048];
  memset(out, 0x55, sizeof out);
  CHECK(make(x, s, out, sizeof out, &used, &said) == WT_REFUSED);
  CHECK(said == why && used == UNCHANGED && out[0] == 0x55);
  said = UNCHANGED;
  CHECK(make(x, s, NULL, 0, &used, &said) == WT_REFUSED && said == why && used == UNCHANGED);
  CHECK(!memcmp(&before, s, sizeof before));
}

void refuses_end(wt_sending *s, uint32_t why) {
  wt_sending before = *s;
  uint32_t said = UNCHANGED;
  CHECK(wt_sending_finish(s, &said) == WT_REFUSED && said == why);
  CHECK(!memcmp(&before, s, sizeof before));
}

void refuses_sent(wt_sending *s, uint64_t length, uint32_t why) {
  wt_sending before = *s;
  uint32_t said = UNCHANGED;
  CHECK(wt_sending_sent(s, length, &said) == WT_REFUSED && said == why);
  CHECK(!memcmp(&before, s, sizeof before));
}

wt_sending request_on(const wt_connection *c, uint64_t id) {
  wt_sending s;
  uint32_t why = UNCHANGED;
  memset(&s, 0xff, sizeof s);
  CHECK(wt_sending_request(c, id, &s, &why) == WT_OK && why == UNCHANGED);
  return s;
}

wt_sending response_on(const wt_connection *c, uint64_t id, uint32_t asked) {
  wt_sending s;
  uint32_t why = UNCHANGED;
  memset(&s, 0xff, sizeof s);
  CHECK(wt_sending_response(c, id, asked, &s, &why) == WT_OK && why == UNCHANGED);
  return s;
}
