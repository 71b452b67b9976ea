/* abi.h over the C interface of the library, c/include/wtransport.h. */
#include "abi.h"
#include <wtransport.h>

static volatile uint64_t sink;

int64_t bench_list(const uint8_t *bytes, size_t len) {
  wt_reader reader;
  wt_frame frame;
  size_t at = 0, consumed, payloads = 0;
  uint64_t code;
  int64_t frames = 0;
  int answer = wt_reader_new(WT_READ_BI_REMOTE, &reader);
  while (answer == WT_OK) {
    answer = wt_read_frame(&reader, bytes + at, len - at, &consumed, &frame, &code);
    if (answer != WT_OK) break;
    ++frames;
    payloads += frame.length;
    at += consumed;
  }
  sink += payloads;
  return answer == WT_MORE ? frames : -1;
}

int64_t bench_qpack_lines(const uint8_t *section, size_t len) {
  static wt_field fields[64];
  static uint8_t texts[8192];
  size_t count, used, size = 0;
  uint64_t code;
  if (wt_fields_read(section, len, fields, 64, texts, sizeof texts, &count, &used, &code) != WT_OK) return -1;
  for (size_t i = 0; i < count; ++i) size += 32 + fields[i].name_length + fields[i].value_length;
  return (int64_t)size;
}

/* The pairs lie in one array of bytes, in their order. */
int64_t bench_qpack_encode(const bench_pair *pairs, size_t count, uint8_t *out, size_t room) {
  wt_field fields[64];
  const uint8_t *texts = pairs[0].name;
  size_t used;
  if (count > 64) return -1;
  for (size_t i = 0; i < count; ++i) {
    fields[i] = (wt_field){(size_t)(pairs[i].name - texts), pairs[i].name_len, (size_t)(pairs[i].value - texts),
                           pairs[i].value_len};
  }
  size_t texts_len = fields[count - 1].value_offset + fields[count - 1].value_length;
  return wt_fields_write(fields, count, texts, texts_len, out, room, &used) == WT_OK ? (int64_t)used : -1;
}

int64_t bench_settings(const uint8_t *payload, size_t len) {
  wt_setting settings[16];
  size_t count;
  uint64_t code;
  return wt_settings_read(payload, len, settings, 16, &count, &code) == WT_OK ? 1 : -1;
}
