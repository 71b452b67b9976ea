/* make_whole PAIRS FOLDER : writes the inputs of the calls of whole connections (abi.h), two for each row: what is measured
   is done more often in the second. After their numbers, the parts that the calls read, each after its length in two bytes,
   highest first. The sections of requests are those that the encoder of nghttp3 makes of the pairs, with a dynamic table
   once all that it inserts is acknowledged. */
#include "inputs.h"
#include <nghttp3/nghttp3.h>

/* How often something is done in the first input of a row. */
enum { LESS = 10, CAPACITY = 4096 };

/* Bytes that grow. */
typedef struct {
  uint8_t at[1 << 16];
  size_t len;
} text;

static void add(text *t, const void *bytes, size_t len) {
  if (t->len + len > sizeof t->at) exit(1);
  memcpy(t->at + t->len, bytes, len);
  t->len += len;
}

static void add_part(text *t, const void *bytes, size_t len) {
  add(t, (uint8_t[]){(uint8_t)(len >> 8), (uint8_t)len}, 2);
  add(t, bytes, len);
}

/* The head of a frame whose length takes two bytes. */
static void add_head(text *t, uint8_t type, size_t len) {
  add(t, (uint8_t[]){type, (uint8_t)(64 | len >> 8), (uint8_t)len}, 3);
}

/* A request without much to read, and a response of a server to a request for a file. */
static const bench_pair small[] = {{(const uint8_t *)":method", 7, (const uint8_t *)"POST", 4},
                                   {(const uint8_t *)":scheme", 7, (const uint8_t *)"https", 5},
                                   {(const uint8_t *)":authority", 10, (const uint8_t *)"a", 1},
                                   {(const uint8_t *)":path", 5, (const uint8_t *)"/", 1}};
enum { RESPONSE = 7 };
static const char *const response[RESPONSE][2] = {{":status", "200"},
                                          {"content-type", "text/html; charset=utf-8"},
                                          {"server", "example/1.25"},
                                          {"date", "Mon, 16 Oct 2023 08:00:00 GMT"},
                                          {"cache-control", "public, max-age=3600"},
                                          {"etag", "\"5d8c72a5edda8d6a:3239\""},
                                          {"vary", "accept-encoding"}};

/* What a client says, and what is sent to it. */
typedef struct {
  text control, encoder, request, response, piece;
  size_t head; /* the length of the HEADERS of a response */
} parts;

/* Encodes a section. What is inserted for it is acknowledged, and added to the encoder stream. */
static void encode(nghttp3_qpack_encoder *encoder, const bench_pair *pairs, size_t count, text *stream, text *section) {
  nghttp3_nv fields[BENCH_FIELDS];
  nghttp3_buf parts[3]; /* the prefix, the lines, the encoder stream */
  for (int i = 0; i < 3; ++i) nghttp3_buf_init(&parts[i]);
  for (size_t i = 0; i < count; ++i)
    fields[i] = (nghttp3_nv){(uint8_t *)pairs[i].name, (uint8_t *)pairs[i].value, pairs[i].name_len, pairs[i].value_len, 0};
  if (nghttp3_qpack_encoder_encode(encoder, &parts[0], &parts[1], &parts[2], 0, fields, count)) exit(1);
  nghttp3_qpack_encoder_ack_everything(encoder);
  section->len = 0;
  for (int i = 0; i < 3; ++i) {
    add(i == 2 ? stream : section, parts[i].pos, nghttp3_buf_len(&parts[i]));
    nghttp3_buf_free(&parts[i], nghttp3_mem_default());
  }
}

/* Makes an encoder with a table of this capacity, and the section of pairs once they are in it. */
static void encode_alone(const bench_pair *pairs, size_t count, uint32_t capacity, text *stream, text *section) {
  nghttp3_qpack_encoder *encoder;
  if (nghttp3_qpack_encoder_new(&encoder, capacity, nghttp3_mem_default())) exit(1);
  nghttp3_qpack_encoder_set_max_dtable_capacity(encoder, capacity);
  nghttp3_qpack_encoder_set_max_blocked_streams(encoder, 16);
  for (int turn = 0; turn < 3; ++turn) encode(encoder, pairs, count, stream, section);
  nghttp3_qpack_encoder_del(encoder);
}

/* Makes the parts of a connection whose tables have this capacity. */
static void make(parts *p, const bench_pair *pairs, size_t count, uint32_t capacity) {
  /* SETTINGS: the table, and 16 streams that may wait for it */
  static const uint8_t with_table[] = {0, 4, 5, 1, 64 | CAPACITY >> 8, 0, 7, 16}, without[] = {0, 4, 0};
  static text section, unused;
  bench_pair fields[RESPONSE];
  memset(p, 0, sizeof *p);
  add(&p->control, capacity ? with_table : without, capacity ? sizeof with_table : sizeof without);
  if (capacity) add(&p->encoder, "\2", 1);
  encode_alone(pairs, count, capacity, &p->encoder, &section);
  add_head(&p->request, 1, section.len);
  add(&p->request, section.at, section.len);
  for (size_t i = 0; i < RESPONSE; ++i) {
    const char *name = response[i][0], *value = response[i][1];
    fields[i] = (bench_pair){(const uint8_t *)name, strlen(name), (const uint8_t *)value, strlen(value)};
    add_part(&p->response, name, strlen(name));
    add_part(&p->response, value, strlen(value));
  }
  unused.len = 0;
  encode_alone(fields, RESPONSE, capacity, &unused, &section);
  p->head = section.len + (section.len < 64 ? 2 : 3);
}

static void put_number(FILE *file, uint32_t number) { fwrite(&number, 4, 1, file); }

static void put(const char *folder, const char *name, const char *end, const parts *p, int64_t answer, uint32_t streams,
                uint32_t count, uint32_t capacity) {
  static const uint8_t zeros[1];
  static text all;
  char path[4096];
  snprintf(path, sizeof path, "%s/whole-%s-%s.bin", folder, name, end);
  FILE *file = fopen(path, "wb");
  if (!file) exit(1);
  put_number(file, (uint32_t)answer);
  put_number(file, streams);
  put_number(file, count);
  put_number(file, capacity);
  all.len = 0;
  const text *of[] = {&p->control, &p->encoder, &p->request, &p->response, &p->piece};
  for (int i = 0; i < 5; ++i) add_part(&all, of[i]->len ? of[i]->at : zeros, of[i]->len);
  fwrite(all.at, 1, all.len, file);
  if (fclose(file)) exit(1);
}

static int64_t size_of(const bench_pair *pairs, size_t count) {
  int64_t size = 0;
  for (size_t i = 0; i < count; ++i) size += (int64_t)(32 + pairs[i].name_len + pairs[i].value_len);
  return size;
}

enum { SMALL = sizeof small / sizeof *small };
static uint8_t content[1 << 14];
static parts p;

/* The rows of many streams: pieces of content in a frame without end, whole frames, pieces that are sent, and streams that
   are opened and closed, which is done a tenth as often. */
static void put_streams(const char *folder, uint32_t streams, uint32_t times) {
  int64_t fields = size_of(small, SMALL);
  for (int last = 0; last < 2; ++last) {
    const char *end = last ? "more" : "less";
    uint32_t n = LESS + (uint32_t)last * times;
    char name[64];
    make(&p, small, SMALL, 0);
    add_head(&p.piece, 0, BENCH_PIECE - 3);
    add(&p.piece, content, BENCH_PIECE - 3);
    snprintf(name, sizeof name, "frame-%u", streams);
    put(folder, name, end, &p, streams * fields + (int64_t)n * (BENCH_PIECE - 3), streams, n, 0);
    p.piece.len = 0;
    add(&p.piece, content, BENCH_PIECE);
    size_t request = p.request.len;
    add(&p.request, (uint8_t[]){0, 0xbf, 0xff, 0xff, 0xff}, 5);
    snprintf(name, sizeof name, "piece-%u", streams);
    put(folder, name, end, &p, streams * fields + (int64_t)n * BENCH_PIECE, streams, n, 0);
    p.request.len = request;
    snprintf(name, sizeof name, "send-%u", streams);
    put(folder, name, end, &p, streams * (fields + (int64_t)p.head) + n * (3 + BENCH_PIECE), streams, n, 0);
    snprintf(name, sizeof name, "open-%u", streams);
    put(folder, name, end, &p, streams * fields, streams, LESS + (uint32_t)last * times / 10, 0);
  }
}

/* The rows of requests and responses, without and with dynamic tables of this capacity. */
static void put_messages(const char *folder, const bench_pair *pairs, size_t count, uint32_t capacity, uint32_t times) {
  int64_t fields = size_of(pairs, count);
  for (int last = 0; last < 2; ++last) {
    const char *end = last ? "more" : "less";
    uint32_t n = LESS + (uint32_t)last * times;
    make(&p, pairs, count, capacity);
    add(&p.piece, content, BENCH_PIECE);
    put(folder, capacity ? "requests-table" : "requests", end, &p, (LESS + n) * fields, LESS, n, capacity);
    put(folder, capacity ? "responses-table" : "responses", end, &p, (LESS + times) * fields + (int64_t)(n * p.head),
        LESS + times, n, capacity);
    put(folder, capacity ? "exchange-table" : "exchange", end, &p,
        (LESS + n) * fields + (int64_t)(n * (p.head + 3 + BENCH_PIECE)), LESS, n, capacity);
  }
}

int main(int argc, char **argv) {
  static bench_pair pairs[PAIRS];
  enum { TIMES = 1000 };
  if (argc != 3) return 1;
  size_t len, count = pairs_of(load(argv[1], &len), pairs);
  put_streams(argv[2], 10, 10 * TIMES);
  put_streams(argv[2], 10000, 100 * TIMES);
  put_messages(argv[2], pairs, count, 0, TIMES);
  put_messages(argv[2], pairs, count, CAPACITY, TIMES);
  make(&p, small, SMALL, 0);
  add(&p.piece, content, sizeof content);
  for (int last = 0; last < 2; ++last) {
    uint32_t n = LESS + (uint32_t)last * TIMES;
    int64_t fields = LESS * size_of(small, SMALL);
    put(argv[2], "nothing", last ? "more" : "less", &p, fields, LESS, n, 0);
    put(argv[2], "send-16384", last ? "more" : "less", &p,
        fields + (int64_t)(LESS * p.head + n * (5 + sizeof content)), LESS, n, 0);
  }
  return 0;
}
