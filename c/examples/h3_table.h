/* QPACK's dynamic tables, for h3.h, which includes it: that for what a connection receives, and the
   peer's for what it sends. They are used if the program defines H3_TABLE before it includes h3.h,
   and sends SETTINGS with H3_TABLE and H3_BLOCKED. */
#ifndef H3_TABLE_H
#define H3_TABLE_H

/* Sends bytes on an own stream of QPACK, which is opened for the first of them, with its type. */
static inline void h3_send_qpack(h3_connection *c, h3_stream **own, uint8_t type,
                                 const uint8_t *bytes, size_t length) {
  if (length == 0) return;
  if (*own == NULL) {
    *own = quic_open(c, false);
    quic_send(*own, &type, 1, false);
  }
  quic_send(*own, bytes, length, false);
}

/* ---- What is received ---- */

/* Whether the bytes of a stream are read with the table: those of sessions need none. */
static inline bool h3_uses_table(const h3_stream *s) {
  return H3_TABLE > 0 && s->session == H3_NONE;
}

/* Sends what is due on the own decoder stream: the answer of a call that wrote it. */
static inline void h3_tell(h3_connection *c, int answer, const uint8_t *bytes, size_t length) {
  if (h3_ok(c, answer)) h3_send_qpack(c, &c->own_decoder, WT_STREAM_QPACK_DECODER, bytes, length);
}

/* Tells the peer that the section that was just read of a stream was, and which entries came. */
static inline void h3_tell_read(h3_stream *s, const h3_event *e) {
  h3_connection *c = s->c;
  uint8_t out[11];
  size_t size;
  if (!h3_uses_table(s)) return;
  int answer = wt_table_acknowledge(c->table, sizeof c->table, s->id, out, sizeof out, &size);
  h3_tell(c, answer, out, size);
  if (e->wt.kind != WT_EVENT_INSERTED) return;
  c->inserted = e->wt.number;
  answer = wt_table_increment(c->table, sizeof c->table, out, sizeof out, &size);
  h3_tell(c, answer, out, size);
}

/* Tells the peer that a stream of a message is read no further. */
static inline void h3_tell_dropped(h3_stream *s) {
  uint8_t out[11];
  size_t size;
  if (!h3_uses_table(s) || !s->bidirectional || s->id == H3_NONE || s->over) return;
  int answer = wt_table_cancel(s->c->table, sizeof s->c->table, s->id, out, sizeof out, &size);
  h3_tell(s->c, answer, out, size);
}

/* A stream waits for the table: not too many may. One whose insertions came waits no longer, also
   before it is read again. */
static inline void h3_count_blocked(h3_connection *c) {
  wt_event e;
  size_t count = 0;
  for (const h3_stream *s = c->streams; s; s = s->next)
    count += s->waits == WT_WAITS_TABLE && s->awaited > c->inserted;
  if (count > H3_BLOCKED && h3_ok(c, wt_too_many_blocked(&c->wt, &e)) &&
      e.kind == WT_EVENT_CONNECTION_ERROR)
    quic_close(c, e.number);
}

/* ---- What is sent ---- */

/* Sends instructions for the peer's table on the own encoder stream. */
static inline void h3_instruct(h3_connection *c, const uint8_t *bytes, size_t length) {
  c->instructed += length;
  h3_send_qpack(c, &c->own_encoder, WT_STREAM_QPACK_ENCODER, bytes, length);
}

/* The SETTINGS of the peer came: sends with its table from now on, if they allow one. */
static inline void h3_use_settings(h3_connection *c) {
  wt_peer_settings its;
  uint8_t out[11];
  size_t size;
  if (H3_TABLE > 0 && h3_ok(c, wt_connection_settings(&c->wt, &its)) &&
      h3_ok(c, wt_encoder_limits(c->encoder, sizeof c->encoder, its.qpack_max_table_capacity,
                                 its.qpack_blocked_streams, out, sizeof out, &size)))
    h3_instruct(c, out, size);
}

/* Writes the HEADERS frame of fields, and sends the instructions that its section needs before it.
   Returns whether the fields may be sent. */
static inline bool h3_write_fields(h3_stream *s, const field_list *f, uint8_t out[H3_MAX_HEAD],
                                   size_t *size) {
  h3_connection *c = s->c;
  uint8_t due[H3_MAX_HEAD];
  size_t due_size;
  uint32_t why;
  if (H3_TABLE == 0)
    return wt_sending_headers(&s->sending, f->list, f->count, f->texts, f->used, out, H3_MAX_HEAD,
                              size, &why) == WT_OK;
  if (wt_sending_headers_with(&s->sending, c->encoder, sizeof c->encoder, f->list, f->count,
                              f->texts, f->used, due, sizeof due, &due_size, out, H3_MAX_HEAD, size,
                              &why) != WT_OK)
    return false;
  h3_instruct(c, due, due_size);
  return true;
}

/* Gives the encoder bytes of the peer's decoder stream, which say what the peer read. */
static inline void h3_tell_encoder(h3_stream *s, const uint8_t *bytes, size_t length) {
  h3_connection *c = s->c;
  uint64_t before = 0, after = 0, code;
  h3_ok(c, wt_encoder_unacknowledged(c->encoder, sizeof c->encoder, &before));
  int answer = wt_encoder_receive(c->encoder, sizeof c->encoder, bytes, length, &code);
  if (answer == WT_ERROR) quic_close(c, code);
  else if (h3_ok(c, answer) &&
           h3_ok(c, wt_encoder_unacknowledged(c->encoder, sizeof c->encoder, &after)))
    c->settled += before - after;
  quic_consume(s, length);
}
#endif
