/* A connection between wt_qpack and nghttp3, and what is compared of it. */
#ifndef CONNECTION_H
#define CONNECTION_H
#include "lists.h"

/* A connection of which one end is ours. */
typedef struct {
  uint64_t limit, most;
  stream streams[STREAMS];
  int64_t next_id;
  buffer orders, told; /* of the encoder stream and of the decoder stream, what was not delivered */
  buffer ours;         /* of the decoder stream, what ours wrote since theirs did, if both read */
  uint64_t inserted;   /* how many entries the decoder has */
  size_t delay;        /* how seldom the encoder stream is delivered */
  int is_changed;      /* bytes are changed on the way, so what is read may be wrong */
  int is_over;         /* both decoders refuse what they were given, or misread it */
  nghttp3_qpack_encoder *encoder; /* theirs, unless the encoder is ours */
  nghttp3_qpack_decoder *decoder; /* theirs */
} connection;

/* What reading a section came to. */
typedef enum { READ, BLOCKED, REFUSED } reading;

static buffer line;
static const char *fault; /* of this connection, if it has one */

static buffer *transcript; /* of the lines that a decoder reads, if they are not compared with fields */

static void fail(const char *why) {
  if (!fault) fault = why;
}

/* Sends the line of a command, and returns the rest of its output if its first word is this. */
static char *answer(const char *wanted) {
  char *output = ask(&line), *rest = rest_of(output);
  if (strcmp(output, wanted) == 0) return rest;
  fail(strcmp(output, "fault") == 0 ? "wt_qpack reports a fault" : "wt_qpack answers another word");
  return NULL;
}

static void start_command(const char *name) {
  clear(&line);
  append_text(&line, name);
  append_text(&line, " ");
}

static void open_stream(connection *c, stream *s) {
  s->id = c->next_id;
  c->next_id += 4;
  s->first = NULL;
  s->last = &s->first;
  if (nghttp3_qpack_stream_context_new(&s->context, s->id, nghttp3_mem_default())) give_up("no context");
}

static void close_stream(stream *s) {
  while (s->first) drop_first(s);
  nghttp3_qpack_stream_context_del(s->context);
}

static int same_text(const uint8_t *a, size_t size, const uint8_t *b, size_t other) {
  return size == other && (size == 0 || memcmp(a, b, size) == 0);
}

/* Notes a line. */
static void note(const uint8_t *name, size_t name_size, const uint8_t *value, size_t value_size, int is_never) {
  append_digits(transcript, name, name_size);
  append_text(transcript, ":");
  append_digits(transcript, value, value_size);
  append_text(transcript, is_never ? ":n " : " ");
}

/* Compares the next line of a section with its field. */
static void compare(section *of, const uint8_t *name, size_t name_size, const uint8_t *value, size_t value_size,
                    int is_never) {
  if (transcript) {
    note(name, name_size, value, value_size, is_never);
    return;
  }
  if (of->lines >= of->fields.count) {
    fail("there are more lines than fields");
    return;
  }
  const nghttp3_nv *f = &of->fields.fields[of->lines++];
  if (!same_text(name, name_size, f->name, f->namelen) || !same_text(value, value_size, f->value, f->valuelen)) {
    fail("a line is another field");
  }
  if (is_never != (f->flags == NGHTTP3_NV_FLAG_NEVER_INDEX)) fail("the bit N is another");
}
#endif
