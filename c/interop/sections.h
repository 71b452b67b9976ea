/* Field sections of nghttp3, for the tests here and for bench/. */
#ifndef SECTIONS_H
#define SECTIONS_H
#include <nghttp3/nghttp3.h>
#include <stdint.h>
#include <string.h>

/* What is done with each line of a section. */
typedef void (*line_user)(nghttp3_vec name, nghttp3_vec value, void *data);

/* Reads a section line by line by a decoder, and hands each to `use`, if it is given. Returns the
   number of lines, or -1. */
static inline int64_t read_lines(nghttp3_qpack_decoder *decoder, nghttp3_qpack_stream_context *context,
                                 const uint8_t *section, size_t size, line_user use, void *data) {
  const uint8_t *end = section + size;
  int64_t lines = 0;
  for (;;) {
    nghttp3_qpack_nv pair;
    uint8_t flags = 0;
    nghttp3_ssize taken = nghttp3_qpack_decoder_read_request(decoder, context, &pair, &flags, section,
                                                             (size_t)(end - section), 1);
    if (taken < 0 || flags & NGHTTP3_QPACK_DECODE_FLAG_BLOCKED) return -1;
    section += taken;
    if (flags & NGHTTP3_QPACK_DECODE_FLAG_EMIT) {
      lines++;
      if (use) use(nghttp3_rcbuf_get_buf(pair.name), nghttp3_rcbuf_get_buf(pair.value), data);
      nghttp3_rcbuf_decref(pair.name);
      nghttp3_rcbuf_decref(pair.value);
    }
    if (flags & NGHTTP3_QPACK_DECODE_FLAG_FINAL) return lines;
  }
}

/* Reads a section of a stream with the dynamic table of a decoder. Returns the number of lines, or -1. */
static inline int64_t read_by(nghttp3_qpack_decoder *decoder, int64_t stream, const uint8_t *section, size_t size,
                              line_user use, void *data) {
  nghttp3_qpack_stream_context *context;
  if (nghttp3_qpack_stream_context_new(&context, stream, nghttp3_mem_default())) return -1;
  int64_t lines = read_lines(decoder, context, section, size, use, data);
  nghttp3_qpack_stream_context_del(context);
  return lines;
}

/* Reads a section with no dynamic table. Returns the number of lines, or -1. */
static inline int64_t read_section(const uint8_t *section, size_t size, line_user use, void *data) {
  static nghttp3_qpack_decoder *decoder;
  static nghttp3_qpack_stream_context *context;
  if (!decoder) {
    nghttp3_qpack_decoder_new(&decoder, 0, 0, nghttp3_mem_default());
    nghttp3_qpack_stream_context_new(&context, 0, nghttp3_mem_default());
  } else {
    nghttp3_qpack_stream_context_reset(context);
  }
  return read_lines(decoder, context, section, size, use, data);
}

/* Writes the section of the pairs. Returns its size, or -1. */
static inline int64_t write_section(const nghttp3_nv *pairs, size_t count, uint8_t *out, size_t room) {
  static nghttp3_qpack_encoder *encoder;
  static nghttp3_buf prefix, lines, stream;
  size_t prefix_size, lines_size;
  if (!encoder) {
    nghttp3_qpack_encoder_new(&encoder, 0, nghttp3_mem_default());
    nghttp3_buf_init(&prefix);
    nghttp3_buf_init(&lines);
    nghttp3_buf_init(&stream);
  }
  nghttp3_buf_reset(&prefix);
  nghttp3_buf_reset(&lines);
  nghttp3_buf_reset(&stream);
  if (nghttp3_qpack_encoder_encode(encoder, &prefix, &lines, &stream, 0, pairs, count)) return -1;
  prefix_size = nghttp3_buf_len(&prefix);
  lines_size = nghttp3_buf_len(&lines);
  if (prefix_size + lines_size > room) return -1;
  memcpy(out, prefix.pos, prefix_size);
  if (lines_size > 0) memcpy(out + prefix_size, lines.pos, lines_size);
  return (int64_t)(prefix_size + lines_size);
}
#endif
