/* abi.h over the crate wt_bench. A Global takes no bytes, a slice is its address and its length, and a pair of slices
   lies as bench_pair does. */
#include "inputs.h"

int64_t wt_bench_list(const uint8_t *bytes, size_t len, size_t *payloads);
int64_t wt_bench_poll(const uint8_t *bytes, size_t len);
int64_t wt_bench_drive(const uint8_t *bytes, size_t len);
int64_t wt_bench_connection(const uint8_t *bytes, size_t len, size_t size);
int64_t wt_bench_message(const uint8_t *bytes, size_t len, size_t size);
int64_t wt_bench_content(const uint8_t *bytes, size_t len, size_t size);
int64_t wt_bench_requests(const uint8_t *parts, size_t len);
int64_t wt_bench_responses(const uint8_t *parts, size_t len);
int64_t wt_bench_streams(const uint8_t *request, size_t len, uint32_t count);
int64_t wt_bench_huffman_decode(const uint8_t *text, size_t len, uint8_t *out, size_t room);
int64_t wt_bench_huffman_encode(const uint8_t *text, size_t len, uint8_t *out, size_t room);
int64_t wt_bench_qpack_decode(const uint8_t *section, size_t len);
int64_t wt_bench_qpack_lines(const uint8_t *section, size_t len);
int64_t wt_bench_qpack_encode(const bench_pair *pairs, size_t count, uint8_t *out, size_t room);
int64_t wt_bench_settings(const uint8_t *payload, size_t len);
int64_t wt_bench_dynamic_lines(uint32_t limit, const uint8_t *parts, size_t len);
int64_t wt_bench_dynamic_encode(const bench_pair *pairs, size_t count, size_t fields, uint32_t capacity);

int64_t bench_dynamic_lines(const uint8_t *bytes, size_t len) {
  return wt_bench_dynamic_lines(number_at(bytes), bytes + 4, len - 4);
}

int64_t bench_dynamic_encode_4k(const bench_pair *pairs, size_t count, uint8_t *out, size_t room) {
  (void)out, (void)room;
  return wt_bench_dynamic_encode(pairs, count, BENCH_FIELDS, 4096);
}

int64_t bench_dynamic_encode_64k(const bench_pair *pairs, size_t count, uint8_t *out, size_t room) {
  (void)out, (void)room;
  return wt_bench_dynamic_encode(pairs, count, BENCH_FIELDS, 65536);
}

int64_t bench_huffman_decode(const uint8_t *text, size_t len, uint8_t *out, size_t room) {
  return wt_bench_huffman_decode(text, len, out, room);
}

int64_t bench_huffman_encode(const uint8_t *text, size_t len, uint8_t *out, size_t room) {
  return wt_bench_huffman_encode(text, len, out, room);
}

int64_t bench_list(const uint8_t *bytes, size_t len) {
  static volatile size_t sink;
  size_t payloads = 0;
  int64_t frames = wt_bench_list(bytes, len, &payloads);
  sink += payloads;
  return frames;
}

int64_t bench_poll(const uint8_t *bytes, size_t len) { return wt_bench_poll(bytes, len); }

int64_t bench_drive(const uint8_t *bytes, size_t len) { return wt_bench_drive(bytes, len); }

int64_t bench_connection(const uint8_t *bytes, size_t len) { return wt_bench_connection(bytes, len, BENCH_PIECE); }

int64_t bench_connection_whole(const uint8_t *bytes, size_t len) { return wt_bench_connection(bytes, len, len); }

int64_t bench_message(const uint8_t *bytes, size_t len) { return wt_bench_message(bytes, len, BENCH_PIECE); }

int64_t bench_content(const uint8_t *bytes, size_t len) { return wt_bench_content(bytes, len, BENCH_PIECE); }

int64_t bench_requests(const uint8_t *bytes, size_t len) { return wt_bench_requests(bytes + 4, len - 4); }

int64_t bench_responses(const uint8_t *bytes, size_t len) { return wt_bench_responses(bytes + 4, len - 4); }

int64_t bench_sessions(const uint8_t *bytes, size_t len) { return wt_bench_requests(bytes + 4, len - 4); }

int64_t bench_streams(const uint8_t *bytes, size_t len) { return wt_bench_streams(bytes + 8, len - 8, number_at(bytes + 4)); }

int64_t bench_qpack_decode(const uint8_t *section, size_t len) { return wt_bench_qpack_decode(section, len); }

int64_t bench_qpack_lines(const uint8_t *section, size_t len) { return wt_bench_qpack_lines(section, len); }

int64_t bench_qpack_encode(const bench_pair *pairs, size_t count, uint8_t *out, size_t room) {
  return wt_bench_qpack_encode(pairs, count, out, room);
}

int64_t bench_settings(const uint8_t *payload, size_t len) { return wt_bench_settings(payload, len); }

/* A call over what make_whole.c writes. */
#define WHOLE(NAME)                                                                                                    \
  int64_t wt_bench_whole_##NAME(uint32_t streams, uint32_t count, uint32_t capacity, const uint8_t *parts, size_t len); \
  int64_t bench_whole_##NAME(const uint8_t *bytes, size_t len) {                                                       \
    return wt_bench_whole_##NAME(number_at(bytes + 4), number_at(bytes + 8), number_at(bytes + 12), bytes + 16, len - 16); \
  }

WHOLE(content)
WHOLE(nothing)
WHOLE(requests)
WHOLE(responses)
WHOLE(send)
WHOLE(send_owned)
WHOLE(open)
WHOLE(exchange)
