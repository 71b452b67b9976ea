/* Random lists of fields. */
#ifndef LISTS_H
#define LISTS_H
#include "peer.h"
#include <nghttp3/nghttp3.h>

enum { MOST_FIELDS = 12 };

/* The fields of a section. Each text is in `texts`. */
typedef struct {
  nghttp3_nv fields[MOST_FIELDS];
  size_t count;
  uint8_t *texts;
} list;

static uint64_t state;

static inline size_t below(size_t n) {
  state ^= state << 13;
  state ^= state >> 7;
  state ^= state << 17;
  return (size_t)(state % n);
}

static inline void seed(uint64_t number) { state = (number + 1) * 0x9e3779b97f4a7c15u; }

static const char *const list_names[] = {
    ":authority", ":path", ":method", ":scheme", ":status", "age", "content-length", "cookie", "date", "etag",
    "accept", "user-agent", "origin", "x-frame-options", "server", "te", "authorization", "x-trace", "custom-key",
    "a-name-that-no-table-has-at-first", "sec-ch-ua", "priority"};
static const char *const list_values[] = {
    "/", "0", "GET", "CONNECT", "https", "200", "404", "*/*", "nosniff", "", "www.example.com", "text/html; charset=utf-8",
    "Mozilla/5.0 (X11; Linux x86_64) AppleWebKit/537.36", "/sample/path?with=a&query=1", "custom-value", "max-age=31536000"};

/* Puts a text, at random from a table, the earlier ones more often, or of random bytes. */
static inline size_t put_text(uint8_t *to, const char *const *table, size_t count, int is_name) {
  static const char letters[] = "abcdefghijklmnopqrstuvwxyz0123456789-_.";
  if (below(12) > 0) {
    const char *text = table[below(1 + below(count))];
    memcpy(to, text, strlen(text));
    return strlen(text);
  }
  size_t size = is_name ? 1 + below(30) : below(below(20) == 0 ? 1500 : 80);
  for (size_t i = 0; i < size; i++) {
    to[i] = is_name ? (uint8_t)letters[below(sizeof letters - 1)] : (uint8_t)(below(16) ? 0x20 + below(0x5f) : below(256));
  }
  return size;
}

/* A list of random fields. Few lists are long, and few fields are never indexed. */
static inline void make_list(list *l) {
  static uint8_t texts[MOST_FIELDS * 2048];
  size_t size = 0;
  l->count = below(MOST_FIELDS + 1);
  for (size_t i = 0; i < l->count; i++) {
    nghttp3_nv *f = &l->fields[i];
    f->namelen = put_text(texts + size, list_names, sizeof list_names / sizeof list_names[0], 1);
    size += f->namelen;
    f->valuelen = put_text(texts + size, list_values, sizeof list_values / sizeof list_values[0], 0);
    size += f->valuelen;
    f->flags = below(12) ? NGHTTP3_NV_FLAG_NONE : NGHTTP3_NV_FLAG_NEVER_INDEX;
  }
  l->texts = malloc(size + 1);
  if (!l->texts) give_up("out of memory");
  memcpy(l->texts, texts, size);
  uint8_t *at = l->texts;
  for (size_t i = 0; i < l->count; i++) {
    l->fields[i].name = at;
    at += l->fields[i].namelen;
    l->fields[i].value = at;
    at += l->fields[i].valuelen;
  }
}

/* A section that was not read yet, and its fields. */
typedef struct section {
  struct section *next;
  list fields;
  buffer bytes;
  size_t taken, lines; /* how far their decoder is in it */
} section;

enum { STREAMS = 8 };

/* A stream, and its sections in their order. One that was cancelled or had enough of them is
   replaced by another with the next number. */
typedef struct {
  int64_t id;
  section *first, **last;
  nghttp3_qpack_stream_context *context;
} stream;

static inline void drop_first(stream *s) {
  section *gone = s->first;
  s->first = gone->next;
  if (!s->first) s->last = &s->first;
  free(gone->fields.texts);
  free(gone->bytes.bytes);
  free(gone);
}

static inline section *add_section(stream *s) {
  section *added = calloc(1, sizeof *added);
  if (!added) give_up("out of memory");
  *s->last = added;
  s->last = &added->next;
  return added;
}
#endif
