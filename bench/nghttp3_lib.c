/* abi.h over nghttp3: QPACK with no dynamic table and with one. Its Huffman code is not exported, so that is measured
   through a section of one line, a literal name "x" with the text as its value. It takes values of at most 64 KiB. */
#include "../c/interop/sections.h"
#include "inputs.h"

int64_t bench_qpack_decode(const uint8_t *section, size_t len) { return read_section(section, len, NULL, NULL); }

static void add_size(nghttp3_vec name, nghttp3_vec value, void *size) { *(size_t *)size += 32 + name.len + value.len; }

int64_t bench_qpack_lines(const uint8_t *section, size_t len) {
  size_t size = 0;
  return read_section(section, len, add_size, &size) < 0 ? -1 : (int64_t)size;
}

int64_t bench_qpack_encode(const bench_pair *pairs, size_t count, uint8_t *out, size_t room) {
  nghttp3_nv named[64];
  if (count > 64) return -1;
  for (size_t i = 0; i < count; ++i) {
    named[i] = (nghttp3_nv){(uint8_t *)pairs[i].name, (uint8_t *)pairs[i].value, pairs[i].name_len,
                            pairs[i].value_len, NGHTTP3_NV_FLAG_NONE};
  }
  return write_section(named, count, out, room);
}

/* The section that has this Huffman text as its value; made once for each text. */
static uint8_t *section_of(const uint8_t *text, size_t len, size_t *section_len) {
  static struct { const uint8_t *text; size_t len; uint8_t *section; size_t section_len; } made[1 << 13];
  size_t slot = ((uintptr_t)text >> 5) % (1 << 13);
  if (made[slot].text != text || made[slot].len != len) {
    free(made[slot].section);
    uint8_t *section = malloc(len + 16), *at = section;
    *at++ = 0;
    *at++ = 0;
    *at++ = 0x21;
    *at++ = 'x';
    if (len < 127) {
      *at++ = (uint8_t)(0x80 | len);
    } else {
      *at++ = 0xff;
      size_t rest = len - 127;
      for (; rest >= 128; rest >>= 7) *at++ = (uint8_t)(0x80 | (rest & 127));
      *at++ = (uint8_t)rest;
    }
    memcpy(at, text, len);
    made[slot].text = text;
    made[slot].len = len;
    made[slot].section = section;
    made[slot].section_len = (size_t)(at - section) + len;
  }
  *section_len = made[slot].section_len;
  return made[slot].section;
}

typedef struct {
  uint8_t *out;
  size_t len;
} copy;

static void copy_value(nghttp3_vec name, nghttp3_vec value, void *to) {
  (void)name;
  memcpy(((copy *)to)->out, value.base, value.len);
  ((copy *)to)->len = value.len;
}

int64_t bench_huffman_decode(const uint8_t *text, size_t len, uint8_t *out, size_t room) {
  size_t section_len;
  copy value = {out, 0};
  if (len > 65536 || room < 2 * len) return -1; /* at most 64 KiB once decoded, which header text is */
  uint8_t *section = section_of(text, len, &section_len);
  return read_section(section, section_len, copy_value, &value) == 1 ? (int64_t)value.len : -1;
}

int64_t bench_huffman_encode(const uint8_t *text, size_t len, uint8_t *out, size_t room) {
  static uint8_t section[1 << 18];
  nghttp3_nv pair = {(uint8_t *)"x", (uint8_t *)text, 1, len, NGHTTP3_NV_FLAG_NONE};
  if (len > 65536) return -1;
  int64_t section_len = write_section(&pair, 1, section, sizeof section);
  if (section_len < 5) return -1;
  size_t head = 5; /* behind the prefix, the name, and the first byte of the value's length */
  if ((section[4] & 127) == 127) {
    while (section[head++] & 0x80) {}
  }
  size_t coded = (size_t)section_len - head;
  if (coded > room) return -1;
  memcpy(out, section + head, coded);
  return (int64_t)coded;
}

/* Decodes the sections of a connection. Its table and its streams are made anew. */
int64_t bench_dynamic_lines(const uint8_t *bytes, size_t len) {
  nghttp3_qpack_decoder *decoder;
  const uint8_t *end = bytes + len, *at = bytes + 4;
  size_t size = 0;
  int64_t id = 0, answer = -1;
  if (nghttp3_qpack_decoder_new(&decoder, number_at(bytes), 0, nghttp3_mem_default())) return -1;
  for (; at < end; ++id) {
    size_t stream = (size_t)at[0] * 256 + at[1];
    if (stream > 0 && nghttp3_qpack_decoder_read_encoder(decoder, at + 2, stream) < 0) goto done;
    at += 2 + stream;
    size_t section = (size_t)at[0] * 256 + at[1];
    if (read_by(decoder, id, at + 2, section, add_size, &size) < 0) goto done;
    at += 2 + section;
  }
  answer = (int64_t)size;
done:
  nghttp3_qpack_decoder_del(decoder);
  return answer;
}

static int64_t encode_all(const bench_pair *pairs, size_t count, size_t capacity) {
  nghttp3_qpack_encoder *encoder;
  nghttp3_buf prefix, lines, stream;
  int64_t size = 0;
  if (nghttp3_qpack_encoder_new(&encoder, capacity, nghttp3_mem_default())) return -1;
  nghttp3_qpack_encoder_set_max_dtable_capacity(encoder, capacity);
  nghttp3_qpack_encoder_set_max_blocked_streams(encoder, 100);
  nghttp3_buf_init(&prefix);
  nghttp3_buf_init(&lines);
  nghttp3_buf_init(&stream);
  for (size_t at = 0; at < count; at += BENCH_FIELDS) {
    nghttp3_nv fields[BENCH_FIELDS];
    size_t here = count - at < BENCH_FIELDS ? count - at : BENCH_FIELDS;
    for (size_t i = 0; i < here; ++i) {
      const bench_pair *p = &pairs[at + i];
      fields[i] = (nghttp3_nv){(uint8_t *)p->name, (uint8_t *)p->value, p->name_len, p->value_len, NGHTTP3_NV_FLAG_NONE};
    }
    nghttp3_buf_reset(&prefix);
    nghttp3_buf_reset(&lines);
    nghttp3_buf_reset(&stream);
    if (nghttp3_qpack_encoder_encode(encoder, &prefix, &lines, &stream, (int64_t)at, fields, here)) size = -1;
    if (size < 0) break;
    nghttp3_qpack_encoder_ack_everything(encoder);
    size += (int64_t)(nghttp3_buf_len(&prefix) + nghttp3_buf_len(&lines) + nghttp3_buf_len(&stream));
  }
  nghttp3_buf_free(&prefix, nghttp3_mem_default());
  nghttp3_buf_free(&lines, nghttp3_mem_default());
  nghttp3_buf_free(&stream, nghttp3_mem_default());
  nghttp3_qpack_encoder_del(encoder);
  return size;
}

int64_t bench_dynamic_encode_4k(const bench_pair *pairs, size_t count, uint8_t *out, size_t room) {
  (void)out, (void)room;
  return encode_all(pairs, count, 4096);
}

int64_t bench_dynamic_encode_64k(const bench_pair *pairs, size_t count, uint8_t *out, size_t room) {
  (void)out, (void)room;
  return encode_all(pairs, count, 65536);
}
