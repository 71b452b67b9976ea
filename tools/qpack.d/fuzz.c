/* Fuzz targets for QPACK with the dynamic table, over the static library of crates/wt_bench: TARGET
   names one. Each reads a stream whole, and cut into pieces whose size the first byte gives, and must
   find the same; sections are compared with nghttp3. The library is not instrumented, so what counts
   as new for the fuzzer is what the calls return (`reported`). */
#include <nghttp3/nghttp3.h>
#include <stdint.h>
#include <stdlib.h>
#include <string.h>

#define MUST(x) do { if (!(x)) abort(); } while (0)

int64_t wt_bench_dynamic_lines(uint32_t limit, const uint8_t *parts, size_t len);
int64_t wt_bench_dynamic_table(uint32_t limit, const uint8_t *stream, size_t len, size_t size);
int64_t wt_bench_dynamic_hear(const uint8_t *bytes, size_t len, size_t size);

__attribute__((section("__libfuzzer_extra_counters"))) static uint8_t reported[1 << 14];

static void note(int64_t number) {
  uint64_t mixed = ((uint64_t)number + 1) * 0xc2b2ae3d27d4eb4fu;
  reported[(mixed ^ mixed >> 29) % sizeof reported] = 1;
}

/* An encoder stream: its table, its insertions and the bytes that are held. */
static void encoder_stream(const uint8_t *d, size_t n) {
  static const uint32_t limits[] = {0, 64, 220, 4096};
  uint32_t limit = limits[d[0] % 4];
  size_t size = 1 + d[0] / 4;
  int64_t whole = wt_bench_dynamic_table(limit, d + 1, n - 1, n);
  MUST(wt_bench_dynamic_table(limit, d + 1, n - 1, size) == whole);
  MUST(wt_bench_dynamic_table(limit, d + 1, n - 1, 1) == whole);
  note(whole);
}

/* Three entries (RFC 9204, appendices B.2 and B.3). */
static const uint8_t orders[] = "\x3f\xbd\x01\xc0\x0fwww.example.com\xc1\x0c/sample/path\x4a" "custom-key\x0c" "custom-value";
enum { ORDERS = sizeof orders - 1 };

/* How nghttp3 reads a section after these orders: the size of its fields, or -1. */
static int64_t they_read(const uint8_t *d, size_t n) {
  nghttp3_qpack_decoder *decoder;
  nghttp3_qpack_stream_context *context;
  const uint8_t *end = d + n;
  int64_t size = 0;
  MUST(!nghttp3_qpack_decoder_new(&decoder, 220, 0, nghttp3_mem_default()));
  MUST(!nghttp3_qpack_stream_context_new(&context, 0, nghttp3_mem_default()));
  MUST(nghttp3_qpack_decoder_read_encoder(decoder, orders, ORDERS) == ORDERS);
  for (uint8_t flags = 0; size >= 0 && !(flags & NGHTTP3_QPACK_DECODE_FLAG_FINAL);) {
    nghttp3_qpack_nv pair;
    nghttp3_ssize taken = nghttp3_qpack_decoder_read_request(decoder, context, &pair, &flags, d, (size_t)(end - d), 1);
    if (taken < 0 || flags & NGHTTP3_QPACK_DECODE_FLAG_BLOCKED) {
      size = -1;
      break;
    }
    d += taken;
    if (flags & NGHTTP3_QPACK_DECODE_FLAG_EMIT) {
      size += 32 + (int64_t)(nghttp3_rcbuf_get_buf(pair.name).len + nghttp3_rcbuf_get_buf(pair.value).len);
      nghttp3_rcbuf_decref(pair.name);
      nghttp3_rcbuf_decref(pair.value);
    }
  }
  nghttp3_qpack_stream_context_del(context);
  nghttp3_qpack_decoder_del(decoder);
  return size;
}

/* A section. What nghttp3 reads is read with the same size; it may refuse what is read here, as a name
   of more than 256 bytes, or a Required Insert Count that no line needs. */
static void section(const uint8_t *d, size_t n) {
  uint8_t *parts = malloc(ORDERS + n + 4);
  MUST(parts);
  parts[0] = 0;
  parts[1] = ORDERS;
  memcpy(parts + 2, orders, ORDERS);
  parts[ORDERS + 2] = (uint8_t)(n >> 8);
  parts[ORDERS + 3] = (uint8_t)n;
  memcpy(parts + ORDERS + 4, d, n);
  int64_t ours = wt_bench_dynamic_lines(220, parts, ORDERS + n + 4), theirs = they_read(d, n);
  free(parts);
  MUST(theirs < 0 || ours == theirs);
  note(ours);
}

/* A decoder stream, by an encoder that sent four sections. */
static void decoder_stream(const uint8_t *d, size_t n) {
  int64_t whole = wt_bench_dynamic_hear(d + 1, n - 1, n);
  MUST(whole != -1 && wt_bench_dynamic_hear(d + 1, n - 1, 1 + d[0]) == whole);
  MUST(wt_bench_dynamic_hear(d + 1, n - 1, 1) == whole);
  /* The encoder inserted four entries, and an instruction that is cut has at most ten bytes. */
  MUST(whole < 0 || (whole / 16 <= 4 && whole % 16 <= 10));
  note(whole);
}

int LLVMFuzzerTestOneInput(const uint8_t *data, size_t size) {
  if (size > 0 && size < 65536) TARGET(data, size);
  return 0;
}
