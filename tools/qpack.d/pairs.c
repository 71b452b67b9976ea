/* pairs PROGRAM LISTS [SEED]: QPACK's dynamic table beside nghttp3. Of random lists of fields, what
   the encoder of wt_qpack writes the decoder of nghttp3 reads as the same fields, and the other way
   round, LISTS each way. A connection has about a hundred lists on eight streams at a time; the bytes
   of the encoder stream, of the decoder stream and the sections come in random order and pieces,
   streams are cancelled, and the capacity of the table changes. Connections follow from their seeds.

   Both decoders read what the encoder of nghttp3 writes, and have to agree: in the fields, where a
   section waits, in what they write to the decoder stream, and in what they refuse. The encoder of
   nghttp3 0.8.0 may evict an entry of which it does not know that it was received, if no section
   refers to it (against RFC 9204, section 2.1.1): both refuse what it then writes, or misread it. In
   every fourth connection bytes are changed on the way, and then the decoders only have to agree. */
#include "connection.h"

enum { EVENTS = 600 };

static unsigned long passed, referring, blocked, cancellations, refused, misread;

/* A section was read. One that refers to the dynamic table begins with a byte other than 0. */
static void count_section(const section *of) {
  passed++;
  referring += of->bytes.bytes[0] != 0;
}

/* ---- our encoder, their decoder */

static void we_set_capacity(connection *c, uint64_t capacity, int must) {
  start_command("capacity");
  append_number(&line, capacity);
  char *output = ask(&line), *rest = rest_of(output);
  if (strcmp(output, "set") == 0) append_bytes(&c->orders, rest);
  else if (strcmp(output, "unset") != 0 || must) fail("a capacity is not set");
}

static void we_encode(connection *c, stream *s) {
  section *added = add_section(s);
  make_list(&added->fields);
  start_command("encode");
  append_number(&line, (uint64_t)s->id);
  for (size_t i = 0; i < added->fields.count; i++) {
    const nghttp3_nv *f = &added->fields.fields[i];
    append_text(&line, " ");
    append_digits(&line, f->name, f->namelen);
    append_text(&line, ":");
    append_digits(&line, f->value, f->valuelen);
    if (f->flags == NGHTTP3_NV_FLAG_NEVER_INDEX) append_text(&line, ":n");
    else if (below(8) == 0) append_text(&line, below(2) ? ":i" : ":w");
  }
  char *orders = answer("sent");
  if (!orders) return;
  char *bytes = rest_of(orders);
  append_bytes(&c->orders, orders);
  append_bytes(&added->bytes, bytes);
}

static void they_read_orders(connection *c, size_t size) {
  if (size > 0 && nghttp3_qpack_decoder_read_encoder(c->decoder, c->orders.bytes, size) != (nghttp3_ssize)size) {
    fail("nghttp3 refuses the encoder stream");
  }
  take(&c->orders, size);
  c->inserted = nghttp3_qpack_decoder_get_icnt(c->decoder);
}

/* Appends what their decoder writes to its stream. */
static void add_theirs(const connection *c, buffer *to) {
  size_t size = nghttp3_qpack_decoder_get_decoder_streamlen(c->decoder);
  uint8_t *bytes = malloc(size + 1);
  if (!bytes) give_up("out of memory");
  nghttp3_buf out = {bytes, bytes + size, bytes, bytes};
  nghttp3_qpack_decoder_write_decoder(c->decoder, &out);
  append(to, out.pos, nghttp3_buf_len(&out));
  free(bytes);
}

static void they_tell(connection *c) { add_theirs(c, &c->told); }

/* How many streams are blocked. */
static uint64_t waiting_streams(const connection *c) {
  uint64_t count = 0;
  for (size_t i = 0; i < STREAMS; i++) {
    const section *first = c->streams[i].first;
    if (first && first->taken > 0 && nghttp3_qpack_stream_context_get_ricnt(c->streams[i].context) > c->inserted) count++;
  }
  return count;
}

/* Reads the first section of a stream, from where their decoder is in it. */
static reading they_try(connection *c, stream *s, section *first) {
  for (;;) {
    nghttp3_qpack_nv pair;
    uint8_t flags = 0;
    nghttp3_ssize taken = nghttp3_qpack_decoder_read_request(c->decoder, s->context, &pair, &flags,
                                                             first->bytes.bytes + first->taken,
                                                             first->bytes.size - first->taken, 1);
    if (taken < 0) return REFUSED;
    first->taken += (size_t)taken;
    if (flags & NGHTTP3_QPACK_DECODE_FLAG_EMIT) {
      nghttp3_vec name = nghttp3_rcbuf_get_buf(pair.name), value = nghttp3_rcbuf_get_buf(pair.value);
      compare(first, name.base, name.len, value.base, value.len, pair.flags & NGHTTP3_NV_FLAG_NEVER_INDEX);
      nghttp3_rcbuf_decref(pair.name);
      nghttp3_rcbuf_decref(pair.value);
    }
    if (flags & NGHTTP3_QPACK_DECODE_FLAG_BLOCKED) return BLOCKED;
    if (flags & NGHTTP3_QPACK_DECODE_FLAG_FINAL) return READ;
  }
}

static void they_read(connection *c, stream *s) {
  section *first = s->first;
  if (!first) return;
  switch (they_try(c, s, first)) {
  case BLOCKED:
    blocked++;
    if (waiting_streams(c) > c->most) fail("more streams are blocked than may be");
    return;
  case REFUSED:
    fail("nghttp3 refuses a section");
    return;
  case READ:
    if (first->lines != first->fields.count) fail("there are fewer lines than fields");
    count_section(first);
    drop_first(s);
    nghttp3_qpack_stream_context_reset(s->context);
  }
}

static void we_hear(connection *c, size_t size) {
  start_command("hear");
  append_digits(&line, c->told.bytes, size);
  answer("known");
  take(&c->told, size);
}

static void they_cancel(connection *c, stream *s) {
  if (nghttp3_qpack_decoder_cancel_stream(c->decoder, s->id)) fail("nghttp3 does not cancel a stream");
}

/* At the end every section was read: the encoder knows of all entries, and may evict each. */
static void we_end(connection *c) {
  start_command("hear");
  append_text(&line, "-");
  char *known = answer("known");
  if (known && strtoull(known, NULL, 10) != c->inserted) fail("the Known Received Count is another");
  if (c->limit > 0) we_set_capacity(c, 0, 1);
}

static void we_begin(const connection *c) {
  start_command("encoder");
  append_number(&line, c->limit);
  append_text(&line, " ");
  append_number(&line, c->most);
  append_text(&line, " ");
  append_number(&line, below(3) ? 1024 : below(200));
  append_text(&line, " ");
  append_number(&line, below(3) ? 512 : below(4096));
  append_text(&line, " ");
  append_number(&line, below(3) ? 256 : below(6));
  answer("encoder");
}

/* ---- their encoder, our decoder */

static void they_encode(connection *c, stream *s) {
  nghttp3_buf prefix, lines, orders;
  section *added = add_section(s);
  make_list(&added->fields);
  nghttp3_buf_init(&prefix);
  nghttp3_buf_init(&lines);
  nghttp3_buf_init(&orders);
  if (nghttp3_qpack_encoder_encode(c->encoder, &prefix, &lines, &orders, s->id, added->fields.fields,
                                   added->fields.count)) {
    fail("nghttp3 does not encode a list");
  }
  append(&added->bytes, prefix.pos, nghttp3_buf_len(&prefix));
  append(&added->bytes, lines.pos, nghttp3_buf_len(&lines));
  append(&c->orders, orders.pos, nghttp3_buf_len(&orders));
  nghttp3_buf_free(&prefix, nghttp3_mem_default());
  nghttp3_buf_free(&lines, nghttp3_mem_default());
  nghttp3_buf_free(&orders, nghttp3_mem_default());
}

/* Changes one of some bytes. */
static void change(buffer *bytes) {
  if (bytes->size > 0) bytes->bytes[below(bytes->size)] ^= (uint8_t)(1u << below(8));
}

/* Takes what our decoder writes to its stream. */
static void take_told(connection *c, const char *told) {
  append_bytes(&c->told, told);
  append_bytes(&c->ours, told);
}

static void we_read_orders(connection *c, size_t size) {
  if (c->is_changed && below(10) == 0) change(&c->orders);
  int accepted = size == 0 || nghttp3_qpack_decoder_read_encoder(c->decoder, c->orders.bytes, size) == (nghttp3_ssize)size;
  start_command("instructions");
  append_digits(&line, c->orders.bytes, size);
  char *output = ask(&line), *rest = rest_of(output);
  int ours = strcmp(output, "count") == 0;
  uint64_t held = ours ? strtoull(rest_of(rest), NULL, 10) : 0;
  take(&c->orders, size);
  /* Ours reads an instruction whole, and theirs may refuse the first bytes of one. */
  if (ours != accepted && held == 0) fail("one decoder refuses the encoder stream");
  if (ours && accepted) {
    c->inserted = strtoull(rest, NULL, 10);
    if (c->inserted != nghttp3_qpack_decoder_get_icnt(c->decoder)) fail("the decoders have other counts");
  } else {
    c->is_over = 1;
  }
}

/* Reads a field of a line of output, and returns what follows it. */
static char *compare_word(section *of, char *word) {
  static buffer name, value;
  char *rest = rest_of(word), *second = strchr(word, ':'), *third = second ? strchr(second + 1, ':') : NULL;
  if (!second) {
    fail("wt_qpack writes no field");
    return rest;
  }
  *second = 0;
  if (third) *third = 0;
  clear(&name);
  clear(&value);
  append_bytes(&name, word);
  append_bytes(&value, second + 1);
  compare(of, name.bytes, name.size, value.bytes, value.size, third != NULL);
  return rest;
}

/* Reads the first section of a stream by our decoder. */
static reading we_try(connection *c, const stream *s, section *first) {
  start_command("section");
  append_number(&line, (uint64_t)s->id);
  append_text(&line, " ");
  append_digits(&line, first->bytes.bytes, first->bytes.size);
  char *output = ask(&line), *rest = rest_of(output);
  if (strcmp(output, "blocked") == 0) {
    if (strtoull(rest, NULL, 10) <= c->inserted) fail("a section waits for entries that were inserted");
    return BLOCKED;
  }
  if (strcmp(output, "lines") != 0) return REFUSED;
  while (*rest && *rest != '|') rest = compare_word(first, rest);
  if (*rest == '|') take_told(c, rest + 2);
  return READ;
}

/* How many bytes an integer takes (RFC 7541, section 5.1). */
static size_t integer_size(const buffer *bytes, size_t at, unsigned prefix) {
  size_t end = at;
  if (end < bytes->size && (bytes->bytes[end++] & prefix) == prefix) {
    while (end < bytes->size && bytes->bytes[end++] & 0x80) {}
  }
  return end - at;
}

/* Whether the decoders may differ. The decoder of nghttp3 does not count the streams that wait, which
   its connection does; and it refuses a section without lines that needs insertions, which a decoder
   may do (RFC 9204, section 2.2.1). */
static int may_differ(const connection *c, const section *of, reading ours, reading theirs) {
  size_t count = integer_size(&of->bytes, 0, 255), prefix = count + integer_size(&of->bytes, count, 127);
  if (ours == REFUSED && theirs == BLOCKED) return waiting_streams(c) > c->most;
  return theirs == REFUSED && prefix == of->bytes.size;
}

/* Reads the first section of a stream by both decoders, which have to read the same lines. Returns
   what it came to, or REFUSED if one of them refuses it or the lines are not the fields. */
static reading both_try(connection *c, stream *s, section *first) {
  static buffer ours, theirs, fields;
  clear(&ours);
  clear(&theirs);
  clear(&fields);
  transcript = &ours;
  reading by_us = we_try(c, s, first);
  transcript = &theirs;
  reading by_them = they_try(c, s, first);
  transcript = &fields;
  for (size_t i = 0; i < first->fields.count; i++) {
    const nghttp3_nv *f = &first->fields.fields[i];
    note(f->name, f->namelen, f->value, f->valuelen, f->flags == NGHTTP3_NV_FLAG_NEVER_INDEX);
  }
  transcript = NULL;
  if (by_us != by_them && !may_differ(c, first, by_us, by_them)) fail("the decoders do not agree about a section");
  if (by_us != by_them) return REFUSED;
  if (by_us != READ) return by_us;
  if (!same_text(ours.bytes, ours.size, theirs.bytes, theirs.size)) fail("the decoders read other lines");
  if (same_text(ours.bytes, ours.size, fields.bytes, fields.size)) {
    count_section(first);
  } else if (!c->is_changed) {
    misread++;
    return REFUSED;
  }
  return READ;
}

static void we_read(connection *c, stream *s) {
  section *first = s->first;
  if (!first) return;
  if (c->is_changed && first->taken == 0 && below(10) == 0) change(&first->bytes);
  switch (both_try(c, s, first)) {
  case BLOCKED:
    blocked++;
    return;
  case REFUSED:
    c->is_over = 1;
    return;
  case READ:
    drop_first(s);
    nghttp3_qpack_stream_context_reset(s->context);
  }
}

static void we_tell(connection *c) {
  buffer theirs = {0};
  clear(&line);
  append_text(&line, "increment");
  char *told = answer("told");
  if (told) take_told(c, told);
  add_theirs(c, &theirs);
  /* A decoder without a table need not cancel streams. */
  if (c->limit > 0 && !same_text(c->ours.bytes, c->ours.size, theirs.bytes, theirs.size)) {
    fail("the decoder streams are not the same");
  }
  clear(&c->ours);
  free(theirs.bytes);
}

static void we_cancel(connection *c, stream *s) {
  start_command("cancel");
  append_number(&line, (uint64_t)s->id);
  char *told = answer("told");
  if (told) take_told(c, told);
  they_cancel(c, s);
}

static void they_hear(connection *c, size_t size) {
  if (size > 0 && nghttp3_qpack_encoder_read_decoder(c->encoder, c->told.bytes, size) != (nghttp3_ssize)size) {
    c->is_changed ? (void)(c->is_over = 1) : fail("nghttp3 refuses the decoder stream");
  }
  take(&c->told, size);
}

static void they_end(const connection *c) {
  if (!c->is_changed && nghttp3_qpack_encoder_get_num_blocked_streams(c->encoder) > 0) fail("a stream is blocked at the end");
}

static void they_begin(connection *c) {
  if (nghttp3_qpack_encoder_new(&c->encoder, c->limit, nghttp3_mem_default())) give_up("no encoder");
  nghttp3_qpack_encoder_set_max_blocked_streams(c->encoder, c->most);
  start_command("decoder");
  append_number(&line, c->limit);
  append_text(&line, " ");
  append_number(&line, c->most);
  answer("decoder");
}

/* ---- a connection */

static void set_capacity(connection *c, uint64_t capacity) {
  if (c->encoder) nghttp3_qpack_encoder_set_max_dtable_capacity(c->encoder, capacity);
  else we_set_capacity(c, capacity, 0);
}

static void encode(connection *c, stream *s) { c->encoder ? they_encode(c, s) : we_encode(c, s); }

static void read_orders(connection *c, size_t size) { c->encoder ? we_read_orders(c, size) : they_read_orders(c, size); }

static void read_first(connection *c, stream *s) { c->encoder ? we_read(c, s) : they_read(c, s); }

static void tell(connection *c) { c->encoder ? we_tell(c) : they_tell(c); }

static void hear(connection *c, size_t size) { c->encoder ? they_hear(c, size) : we_hear(c, size); }

static void cancel(connection *c, stream *s) {
  c->encoder ? we_cancel(c, s) : they_cancel(c, s);
  cancellations++;
  close_stream(s);
  open_stream(c, s);
}

/* One random event. */
static void step(connection *c) {
  stream *s = &c->streams[below(STREAMS)];
  switch (below(16)) {
  case 0: case 1: case 2:
    encode(c, s);
    break;
  case 3: case 4: case 5: case 6:
    if (below(c->delay) == 0) read_orders(c, below(2) ? c->orders.size : below(c->orders.size + 1));
    break;
  case 7: case 8: case 9: case 10: case 11:
    read_first(c, s);
    break;
  case 12:
    tell(c);
    break;
  case 13: case 14:
    hear(c, below(4) ? c->told.size : below(c->told.size + 1));
    break;
  default:
    if (below(6) == 0) cancel(c, s);
    else if (below(40) == 0) set_capacity(c, below(c->limit + 1));
    else if (!s->first && below(3) == 0) {
      close_stream(s);
      open_stream(c, s);
    }
  }
}

/* Reads all sections of a stream, unless they wait for what was changed on the way. */
static void read_all(connection *c, stream *s) {
  while (s->first && !fault && !c->is_over) {
    const section *before = s->first;
    read_first(c, s);
    if (s->first != before) continue;
    if (!c->is_changed) fail("a section waits at the end");
    return;
  }
}

/* Delivers all of the decoder stream. */
static void end(connection *c) {
  tell(c);
  hear(c, c->told.size);
  c->encoder ? they_end(c) : we_end(c);
}

static uint64_t some_limit(void) {
  static const uint64_t limits[] = {0, 32, 64, 100, 220, 512, 1024, 2048, 4096, 4096};
  return limits[below(sizeof limits / sizeof limits[0])];
}

/* Plays a connection. Its fault is in `fault`. */
static void play(uint64_t number, int is_encoder_ours) {
  static const uint64_t mosts[] = {0, 1, 2, 5, 16, 100};
  connection c = {0};
  seed(number);
  fault = NULL;
  c.limit = some_limit();
  c.delay = 1 + below(12);
  c.is_changed = !is_encoder_ours && number % 4 == 0;
  c.most = mosts[below(sizeof mosts / sizeof mosts[0])];
  if (nghttp3_qpack_decoder_new(&c.decoder, c.limit, c.most, nghttp3_mem_default())) give_up("no decoder");
  nghttp3_qpack_decoder_set_max_concurrent_streams(c.decoder, 1000);
  is_encoder_ours ? we_begin(&c) : they_begin(&c);
  for (size_t i = 0; i < STREAMS; i++) open_stream(&c, &c.streams[i]);
  set_capacity(&c, below(3) ? c.limit : below(c.limit + 1));
  for (size_t i = 0; i < EVENTS && !fault && !c.is_over; i++) step(&c);
  if (!fault && !c.is_over) read_orders(&c, c.orders.size);
  for (size_t i = 0; i < STREAMS; i++) read_all(&c, &c.streams[i]);
  if (!fault && !c.is_over) end(&c);
  refused += (unsigned long)c.is_over;
  for (size_t i = 0; i < STREAMS; i++) close_stream(&c.streams[i]);
  free(c.orders.bytes);
  free(c.told.bytes);
  free(c.ours.bytes);
  if (c.encoder) nghttp3_qpack_encoder_del(c.encoder);
  nghttp3_qpack_decoder_del(c.decoder);
}

int main(int argc, char **argv) {
  unsigned long lists = argc > 2 ? strtoul(argv[2], NULL, 10) : 2000, failed = 0, all = 0;
  uint64_t first = argc > 3 ? strtoull(argv[3], NULL, 10) : 1;
  if (argc < 2) give_up("pairs PROGRAM LISTS [SEED]");
  start_program(argv[1]);
  for (int is_ours = 0; is_ours < 2; is_ours++) {
    passed = referring = blocked = cancellations = refused = misread = 0;
    uint64_t number = first;
    for (; passed < lists && failed < 10; number++) {
      play(number, is_ours);
      if (!fault) continue;
      failed++;
      fprintf(stderr, "%s encoder, connection %llu: %s\n", is_ours ? "our" : "their", (unsigned long long)number, fault);
    }
    fprintf(stderr,
            "%s encoder: %lu lists in %llu connections, %lu refer to the table, %lu waits, %lu cancellations, %lu refused or "
            "misread (%lu) by both decoders\n",
            is_ours ? "our" : "their", passed, (unsigned long long)(number - first), referring, blocked, cancellations,
            refused, misread);
    all += passed;
  }
  if (!end_program()) failed++;
  printf("%lu passed, %lu failed\n", all, failed);
  return failed > 0;
}
