/* What the connections here exchange, and the transcripts by which it is compared. */
#ifndef MESSAGES_H
#define MESSAGES_H
#include <stddef.h>
#include <stdint.h>
#include <stdio.h>
#include <stdlib.h>
#include <string.h>

/* What a test itself needs, whatever is tested. */
#define MUST(x)                                                       \
  do {                                                                \
    if (!(x)) {                                                       \
      fprintf(stderr, "%s:%d: %s\n", __FILE__, __LINE__, #x);         \
      abort();                                                        \
    }                                                                 \
  } while (0)

enum { LINES = 24, FRAMES = 8, STREAM = 1 << 16 };

typedef struct {
  const char *name, *value;
} line;

/* A message: the lines of each of its sections end at one with no name, and its DATA frames at one of
   size 0. Its content is the start of `content`. */
typedef struct {
  line info[3];      /* of an informational response before it */
  line lines[LINES];
  size_t data[FRAMES];
  line trailers[3];
} message;

/* A request and its response. The url, if there is one, is that of a session that is requested. */
typedef struct {
  const char *name, *url;
  message request, response;
} exchange;

/* The value of a line of a message, or no text. */
static inline const char *value_of(const message *m, const char *name) {
  for (const line *l = m->lines; l->name != NULL; l++) {
    if (strcmp(l->name, name) == 0) return l->value;
  }
  return "";
}

static const uint8_t content[] = "All of a message's content, in pieces.";

/* The byte of a message's content at a place. */
static inline uint8_t content_at(size_t i) { return (uint8_t)(content[i % sizeof content] + i / 251); }

/* The bytes of a stream. */
typedef struct {
  uint8_t bytes[STREAM];
  size_t size;
} stream;

static inline void append(stream *s, const void *bytes, size_t size) {
  MUST(size <= sizeof s->bytes - s->size);
  if (size > 0) memcpy(s->bytes + s->size, bytes, size);
  s->size += size;
}

/* What was read, in order: lines, ends of sections, bytes of content, settings, faults and the end. Bytes of
   content are the same however they come in pieces. */
typedef stream transcript;

static inline void tell(transcript *t, char what, const void *bytes, size_t size) {
  append(t, &what, 1);
  append(t, &size, sizeof size);
  append(t, bytes, size);
}

static inline void tell_line(transcript *t, const void *name, size_t name_size, const void *value,
                             size_t value_size) {
  tell(t, 'n', name, name_size);
  tell(t, 'v', value, value_size);
}

static inline void tell_section_end(transcript *t) { tell(t, 's', NULL, 0); }

static inline void tell_content(transcript *t, const uint8_t *bytes, size_t size) {
  for (size_t i = 0; i < size; i++) {
    append(t, "c", 1);
    append(t, bytes + i, 1);
  }
}

static inline void tell_setting(transcript *t, uint64_t id, uint64_t value) {
  tell(t, 'i', &id, sizeof id);
  tell(t, 'u', &value, sizeof value);
}

static inline void tell_fault(transcript *t, uint64_t code) { tell(t, 'f', &code, sizeof code); }

static inline void tell_end(transcript *t) { tell(t, 'e', NULL, 0); }

static inline void tell_section(transcript *t, const line *lines) {
  if (lines->name == NULL) return;
  for (; lines->name != NULL; lines++) {
    tell_line(t, lines->name, strlen(lines->name), lines->value, strlen(lines->value));
  }
  tell_section_end(t);
}

/* The transcript of a message. */
static inline void tell_message(transcript *t, const message *m) {
  size_t at = 0;
  tell_section(t, m->info);
  tell_section(t, m->lines);
  for (const size_t *size = m->data; *size > 0; size++) {
    for (size_t end = at + *size; at < end; at++) {
      uint8_t byte = content_at(at);
      tell_content(t, &byte, 1);
    }
  }
  tell_section(t, m->trailers);
  tell_end(t);
}

static inline int is_same(const transcript *a, const transcript *b) {
  return a->size == b->size && memcmp(a->bytes, b->bytes, a->size) == 0;
}

static uint64_t random_state = 0x9e3779b97f4a7c15u;

static inline size_t below(size_t n) {
  random_state ^= random_state << 13;
  random_state ^= random_state >> 7;
  random_state ^= random_state << 17;
  return (size_t)(random_state % n);
}

/* Begins the numbers that a seed has. */
static inline void seed(uint64_t number) {
  random_state = (number + 1) * 0x9e3779b97f4a7c15u;
  for (int i = 0; i < 8; i++) below(2);
}
#endif
