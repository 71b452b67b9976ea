/* The streams and datagrams of QUIC connections (quic.h). */
#include "quic.h"
#include <gnutls/crypto.h>

enum {
  TURN = 16, /* packets that a connection sends in a turn */
  DATAGRAM_BYTES = 1 << 20 /* that wait on a connection */
};

/* ---- Bytes that wait ---- */

struct quic_chunk {
  quic_chunk *next;
  uint64_t end; /* how many bytes of its queue there are up to its own last one */
  size_t size;
  size_t credit; /* of the peer, when these are acknowledged */
  uint8_t bytes[];
};

static quic_chunk *append(quic_queue *q, const void *bytes, size_t size) {
  quic_chunk *added = quic_allocate(sizeof *added + size);
  memcpy(added->bytes, bytes, size);
  added->size = size;
  added->end = q->end += size;
  if (q->last) q->last->next = added;
  else q->first = added;
  return q->last = added;
}

static void remove_first(quic_queue *q) {
  quic_chunk *first = q->first;
  q->first = first->next;
  if (q->first == NULL) q->last = NULL;
  free(first);
}

/* ---- Streams ---- */

static ngtcp2_conn *conn_of(const h3_stream *s) { return ((quic_connection *)s->c)->conn; }

h3_stream *quic_open(h3_connection *c, bool bidirectional) {
  quic_stream *s = quic_allocate(sizeof *s);
  h3_add(c, &s->h3, true, bidirectional);
  return &s->h3;
}

void quic_send(h3_stream *h3, const void *bytes, size_t length, bool fin) {
  quic_stream *s = (quic_stream *)h3;
  if (s->fin) return;
  s->fin = fin;
  if (length == 0) return;
  quic_chunk *added = append(&s->out, bytes, length);
  if (s->unsent == NULL) s->unsent = added;
}

/* (The bytes that were sent stay until the stream is closed, since ngtcp2 may look at them.) */
void quic_reset(h3_stream *h3, uint64_t code) {
  quic_stream *s = (quic_stream *)h3;
  s->fin = s->fin_sent = true;
  if (h3->id == H3_NONE) s->closed = true;
  else ngtcp2_conn_shutdown_stream_write(conn_of(h3), (int64_t)h3->id, code);
}

void quic_stop(h3_stream *s, uint64_t code) {
  ngtcp2_conn_shutdown_stream_read(conn_of(s), (int64_t)s->id, code);
  s->over = true;
}

void quic_consume(h3_stream *s, size_t length) {
  ngtcp2_conn_extend_max_stream_offset(conn_of(s), (int64_t)s->id, length);
  ngtcp2_conn_extend_max_offset(conn_of(s), length);
}

void quic_consume_later(h3_stream *s, size_t length) {
  quic_chunk *last = ((quic_stream *)s)->out.last;
  if (last) last->credit += length;
  else quic_consume(s, length);
}

void quic_send_datagram(h3_connection *h3, const uint8_t *bytes, size_t length) {
  quic_queue *q = &((quic_connection *)h3)->datagrams;
  if (q->first == NULL || q->end - q->first->end < DATAGRAM_BYTES) append(q, bytes, length);
}

/* Frees the bytes of a stream up to this offset. */
static void acknowledge(quic_stream *s, uint64_t end) {
  while (s->out.first && s->out.first->end <= end) {
    quic_consume(&s->h3, s->out.first->credit);
    remove_first(&s->out);
  }
}

static void free_stream(quic_stream *s) {
  acknowledge(s, s->out.end);
  free(s->h3.room);
  free(s->h3.user);
  free(s);
}

bool quic_is_closed(const quic_stream *s) { return s->closed && !h3_ends_later(&s->h3); }

/* (Version 0.12 of ngtcp2 does not close a unidirectional stream of the peer by itself.) */
static bool is_gone(const quic_stream *s) {
  return (quic_is_closed(s) && !s->kept) || (s->h3.over && !s->h3.own && !s->h3.bidirectional);
}

/* Opens a stream that waits for that, if the peer allows it. */
static void open_now(quic_stream *s) {
  int64_t id;
  if ((s->h3.bidirectional ? ngtcp2_conn_open_bidi_stream
                           : ngtcp2_conn_open_uni_stream)(conn_of(&s->h3), &id, s) == 0)
    s->h3.id = (uint64_t)id;
}

/* Opens streams, says which are stopped, and frees those that are gone. */
void quic_sweep(quic_connection *c) {
  for (h3_stream **at = &c->h3.streams, *h3; (h3 = *at) != NULL;) {
    quic_stream *s = (quic_stream *)h3;
    if (h3->id == H3_NONE && !s->closed) open_now(s);
    if (s->stopped) h3_was_stopped(h3, false);
    s->stopped = false;
    if (!is_gone(s)) {
      at = &h3->next;
      continue;
    }
    *at = h3->next;
    if (!h3->own)
      (h3->bidirectional ? ngtcp2_conn_extend_max_streams_bidi
                         : ngtcp2_conn_extend_max_streams_uni)(c->conn, 1);
    ngtcp2_conn_set_stream_user_data(c->conn, (int64_t)h3->id, NULL);
    free_stream(s);
  }
}

void quic_free_streams(quic_connection *c) {
  while (c->h3.streams) {
    quic_stream *s = (quic_stream *)c->h3.streams;
    c->h3.streams = s->h3.next;
    free_stream(s);
  }
  while (c->datagrams.first) remove_first(&c->datagrams);
}

/* ---- What ngtcp2 calls ---- */

static int on_open(ngtcp2_conn *conn, int64_t id, void *of) {
  quic_connection *c = of;
  quic_stream *s = quic_allocate(sizeof *s);
  s->fin = s->fin_sent = id & 2;
  ngtcp2_conn_set_stream_user_data(conn, id, s);
  h3_accept(&c->h3, &s->h3, (uint64_t)id);
  return 0;
}

static int on_data(ngtcp2_conn *conn, uint32_t flags, int64_t id, uint64_t offset,
                   const uint8_t *bytes, size_t length, void *c, void *s) {
  if (s)
    h3_receive(s, bytes ? bytes : (const uint8_t *)"", length, flags & NGTCP2_STREAM_DATA_FLAG_FIN);
  else ngtcp2_conn_extend_max_offset(conn, length);
  return 0;
}

static int on_reset(ngtcp2_conn *conn, int64_t id, uint64_t size, uint64_t code, void *c, void *s) {
  if (s) h3_was_reset(s, code);
  return 0;
}

static int on_acknowledged(ngtcp2_conn *conn, int64_t id, uint64_t offset, uint64_t length, void *c,
                           void *s) {
  if (s) acknowledge(s, offset + length);
  return 0;
}

static int on_close(ngtcp2_conn *conn, uint32_t flags, int64_t id, uint64_t code, void *c,
                    void *of) {
  quic_stream *s = of;
  if (s == NULL) return 0;
  s->closed = true;
  h3_was_stopped(&s->h3, true);
  return 0;
}

static int on_datagram(ngtcp2_conn *conn, uint32_t flags, const uint8_t *bytes, size_t length,
                       void *c) {
  h3_receive_datagram(c, bytes, length);
  return 0;
}

static int on_handshake(ngtcp2_conn *conn, void *of) {
  quic_connection *c = of;
  if (!c->late_settings) quic_send_settings(c);
  return 0;
}

static void on_rand(uint8_t *bytes, size_t length, const ngtcp2_rand_ctx *context) {
  gnutls_rnd(GNUTLS_RND_RANDOM, bytes, length);
}

/* (The token of a stateless reset is random, since none is sent.) */
static int on_new_id(ngtcp2_conn *conn, ngtcp2_cid *id, uint8_t *token, size_t length, void *c) {
  quic_make_id(c, id);
  gnutls_rnd(GNUTLS_RND_RANDOM, token, NGTCP2_STATELESS_RESET_TOKENLEN);
  return 0;
}

const ngtcp2_callbacks quic_callbacks = {
    .client_initial = ngtcp2_crypto_client_initial_cb,
    .recv_client_initial = ngtcp2_crypto_recv_client_initial_cb,
    .recv_crypto_data = ngtcp2_crypto_recv_crypto_data_cb,
    .recv_retry = ngtcp2_crypto_recv_retry_cb,
    .handshake_completed = on_handshake,
    .encrypt = ngtcp2_crypto_encrypt_cb,
    .decrypt = ngtcp2_crypto_decrypt_cb,
    .hp_mask = ngtcp2_crypto_hp_mask_cb,
    .recv_stream_data = on_data,
    .acked_stream_data_offset = on_acknowledged,
    .stream_open = on_open,
    .stream_close = on_close,
    .stream_reset = on_reset,
    .rand = on_rand,
    .get_new_connection_id = on_new_id,
    .update_key = ngtcp2_crypto_update_key_cb,
    .delete_crypto_aead_ctx = ngtcp2_crypto_delete_crypto_aead_ctx_cb,
    .delete_crypto_cipher_ctx = ngtcp2_crypto_delete_crypto_cipher_ctx_cb,
    .recv_datagram = on_datagram,
    .get_path_challenge_data = ngtcp2_crypto_get_path_challenge_data_cb,
    .version_negotiation = ngtcp2_crypto_version_negotiation_cb};

/* ---- Packets ---- */

/* The next stream with something to send, from this one on. */
static quic_stream *next_to_send(h3_stream *h3) {
  for (; h3; h3 = h3->next) {
    quic_stream *s = (quic_stream *)h3;
    if (h3->id != H3_NONE && !s->fin_sent && (s->unsent || s->fin)) return s;
  }
  return NULL;
}

/* Adds a part of a stream, or only what ngtcp2 itself has to send, to the packet. */
static ngtcp2_ssize write_stream(ngtcp2_conn *conn, quic_stream *s, uint8_t *packet, uint64_t now) {
  ngtcp2_vec v = {NULL, 0};
  ngtcp2_ssize taken = -1;
  uint32_t flags = NGTCP2_WRITE_STREAM_FLAG_MORE;
  if (s && s->unsent) {
    v.len = s->unsent->end - s->sent;
    v.base = s->unsent->bytes + s->unsent->size - v.len;
  }
  bool with_fin = s && s->fin && (s->unsent == NULL || s->unsent->next == NULL);
  if (with_fin) flags |= NGTCP2_WRITE_STREAM_FLAG_FIN;
  ngtcp2_ssize n = ngtcp2_conn_writev_stream(conn, NULL, NULL, packet, PACKET, &taken, flags,
                                             s ? (int64_t)s->h3.id : -1, &v, 1, now);
  if (taken >= 0) s->sent += (size_t)taken;
  if (taken >= 0 && (size_t)taken == v.len) {
    if (s->unsent) s->unsent = s->unsent->next;
    s->fin_sent = with_fin;
  }
  return n;
}

/* Adds the first datagram that waits. */
static ngtcp2_ssize write_datagram(quic_connection *c, uint8_t *packet, uint64_t now) {
  ngtcp2_vec v = {c->datagrams.first->bytes, c->datagrams.first->size};
  int accepted = 0;
  ngtcp2_ssize n = ngtcp2_conn_writev_datagram(c->conn, NULL, NULL, packet, PACKET, &accepted,
                                               NGTCP2_WRITE_DATAGRAM_FLAG_MORE, 0, &v, 1, now);
  bool refused = n == NGTCP2_ERR_INVALID_STATE || n == NGTCP2_ERR_INVALID_ARGUMENT;
  if (accepted || refused) remove_first(&c->datagrams);
  return refused ? NGTCP2_ERR_WRITE_MORE : n;
}

/* Sends what a connection has to send and may send, at most TURN packets, in which its streams take
   turns. Returns 0, or the error of ngtcp2. */
int quic_write_packets(quic_connection *c) {
  uint8_t packet[PACKET];
  uint64_t now = quic_now();
  quic_stream *s = next_to_send(c->h3.streams);
  for (int count = 0; count < TURN;) {
    ngtcp2_ssize n =
        c->datagrams.first ? write_datagram(c, packet, now) : write_stream(c->conn, s, packet, now);
    if (n == 0) break;
    if (n > 0) count++;
    quic_send_packet(c, packet, n);
    if (n == NGTCP2_ERR_STREAM_SHUT_WR || n == NGTCP2_ERR_STREAM_NOT_FOUND)
      s->stopped = s->fin = s->fin_sent = true;
    else if (n < 0 && n != NGTCP2_ERR_WRITE_MORE && n != NGTCP2_ERR_STREAM_DATA_BLOCKED)
      return (int)n;
    if (s) s = next_to_send(n > 0 || n == NGTCP2_ERR_STREAM_DATA_BLOCKED ? s->h3.next : &s->h3);
    if (s == NULL && n > 0) s = next_to_send(c->h3.streams);
  }
  ngtcp2_conn_update_pkt_tx_time(c->conn, now);
  return 0;
}
