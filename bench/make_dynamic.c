/* make_dynamic PAIRS OUT CAPACITY : writes what the encoder of nghttp3 makes of the requests of a connection, 20 fields
   each, with a table of this capacity and each section acknowledged: the capacity in four bytes, lowest first; then for
   each request what it adds to the encoder stream, and its section, each after its length in two bytes, highest first. */
#include "inputs.h"
#include <nghttp3/nghttp3.h>

static void put_length(FILE *file, size_t length) {
  fputc((int)(length >> 8), file);
  fputc((int)(length & 255), file);
}

static void put(FILE *file, const nghttp3_buf *bytes) { fwrite(bytes->pos, 1, nghttp3_buf_len(bytes), file); }

int main(int argc, char **argv) {
  static bench_pair pairs[PAIRS];
  if (argc != 4) return 1;
  size_t len, count = pairs_of(load(argv[1], &len), pairs);
  uint32_t capacity = (uint32_t)strtoul(argv[3], NULL, 10);
  nghttp3_qpack_encoder *encoder;
  nghttp3_buf prefix, lines, stream;
  FILE *out = fopen(argv[2], "wb");
  if (!out || nghttp3_qpack_encoder_new(&encoder, capacity, nghttp3_mem_default())) return 1;
  nghttp3_qpack_encoder_set_max_dtable_capacity(encoder, capacity);
  nghttp3_qpack_encoder_set_max_blocked_streams(encoder, 100);
  nghttp3_buf_init(&prefix);
  nghttp3_buf_init(&lines);
  nghttp3_buf_init(&stream);
  fwrite(&capacity, 4, 1, out);
  for (size_t at = 0; at < count; at += BENCH_FIELDS) {
    nghttp3_nv fields[BENCH_FIELDS];
    nghttp3_buf_reset(&prefix);
    nghttp3_buf_reset(&lines);
    nghttp3_buf_reset(&stream);
    for (size_t i = 0; i < BENCH_FIELDS; ++i) {
      const bench_pair *p = &pairs[at + i];
      fields[i] = (nghttp3_nv){(uint8_t *)p->name, (uint8_t *)p->value, p->name_len, p->value_len, NGHTTP3_NV_FLAG_NONE};
    }
    if (nghttp3_qpack_encoder_encode(encoder, &prefix, &lines, &stream, (int64_t)at, fields, BENCH_FIELDS)) return 1;
    nghttp3_qpack_encoder_ack_everything(encoder);
    put_length(out, nghttp3_buf_len(&stream));
    put(out, &stream);
    put_length(out, nghttp3_buf_len(&prefix) + nghttp3_buf_len(&lines));
    put(out, &prefix);
    put(out, &lines);
  }
  return fclose(out) != 0;
}
