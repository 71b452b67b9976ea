/* The calls of abi.h over whole connections of nghttp3: a server, of which QUIC takes at once what it sends, and the client
   acknowledges it. Content is sent without a copy. */
#include "inputs.h"
#include <nghttp3/nghttp3.h>

/* The streams of a client and of a server: control, encoder, decoder. */
enum { CONTROL = 2, ENCODER = 6, DECODER = 10, OWN_CONTROL = 3, OWN_DECODER = 7, OWN_ENCODER = 11, FIELDS = 16, VECS = 16 };

typedef struct {
  const uint8_t *at;
  size_t len;
} part;

/* A connection, its input, and what was counted. */
typedef struct {
  nghttp3_conn *conn;
  uint32_t streams, count;
  part control, encoder, request, response, piece;
  nghttp3_nv fields[FIELDS];
  size_t field_count;
  int pieces; /* of content that may be sent now */
  int ends;   /* whether the stream ends after the next */
  int64_t sum;
} server;

static int on_data(nghttp3_conn *conn, int64_t stream, const uint8_t *data, size_t len, void *user, void *its) {
  (void)conn, (void)stream, (void)data, (void)its;
  ((server *)user)->sum += (int64_t)len;
  return 0;
}

static int on_field(nghttp3_conn *conn, int64_t stream, int32_t token, nghttp3_rcbuf *name, nghttp3_rcbuf *value,
                    uint8_t flags, void *user, void *its) {
  (void)conn, (void)stream, (void)token, (void)flags, (void)its;
  ((server *)user)->sum += (int64_t)(32 + nghttp3_rcbuf_get_buf(name).len + nghttp3_rcbuf_get_buf(value).len);
  return 0;
}

static int on_acked(nghttp3_conn *conn, int64_t stream, uint64_t len, void *user, void *its) {
  (void)conn, (void)stream, (void)len, (void)user, (void)its;
  return 0;
}

/* The next piece of content, if there is one. */
static nghttp3_ssize next_piece(nghttp3_conn *conn, int64_t stream, nghttp3_vec *vec, size_t count, uint32_t *flags,
                                void *user, void *its) {
  server *s = user;
  (void)conn, (void)stream, (void)count, (void)its;
  if (!s->pieces) return NGHTTP3_ERR_WOULDBLOCK;
  --s->pieces;
  if (s->ends) *flags |= NGHTTP3_DATA_FLAG_EOF;
  vec->base = (uint8_t *)s->piece.at;
  vec->len = s->piece.len;
  return 1;
}

static const nghttp3_callbacks callbacks = {.acked_stream_data = on_acked, .recv_data = on_data, .recv_header = on_field};
static const nghttp3_data_reader content = {next_piece};

static part part_of(const uint8_t **at) {
  part p = {*at + 2, (size_t)(*at)[0] * 256 + (*at)[1]};
  *at = p.at + p.len;
  return p;
}

static int come(server *s, int64_t stream, part p, int fin) {
  return nghttp3_conn_read_stream(s->conn, stream, p.at, p.len, fin) >= 0;
}

/* Whether these are HEADERS whose section refers to the dynamic table: it begins with another byte than 0. The head of the
   frame and the prefix of its section are in the first part. */
static int is_dynamic(const nghttp3_vec *v, nghttp3_ssize count) {
  if (count < 1 || v[0].len < 4 || v[0].base[0] != 1) return 0;
  return v[0].base[v[0].base[1] < 64 ? 2 : 3];
}

/* The client acknowledges the section of a stream, of the first 4,096 (RFC 9204, section 4.4.1). */
static int acknowledge(server *s, int64_t stream) {
  int64_t rest = stream - 127;
  if (rest < 0) return come(s, DECODER, (part){(uint8_t[]){(uint8_t)(128 + stream)}, 1}, 0);
  if (rest < 128) return come(s, DECODER, (part){(uint8_t[]){255, (uint8_t)rest}, 2}, 0);
  return come(s, DECODER, (part){(uint8_t[]){255, (uint8_t)(128 + rest % 128), (uint8_t)(rest / 128)}, 3}, 0);
}

/* Takes what QUIC is to send. Returns whether there was no error. */
static int take(server *s) {
  for (;;) {
    nghttp3_vec v[VECS];
    int64_t stream;
    int fin;
    nghttp3_ssize n = nghttp3_conn_writev_stream(s->conn, &stream, &fin, v, VECS);
    if (n < 0) return 0;
    if (stream < 0) return 1;
    size_t len = nghttp3_vec_len(v, (size_t)n);
    int tells = stream % 4 == 0 && is_dynamic(v, n);
    if (nghttp3_conn_add_write_offset(s->conn, stream, len)) return 0;
    if (nghttp3_conn_add_ack_offset(s->conn, stream, len)) return 0;
    if (stream % 4 == 0) s->sum += (int64_t)len;
    if (tells && !acknowledge(s, stream)) return 0;
  }
}

/* Makes the connection of an input, with its open streams. Returns whether there was no error. */
static int make(server *s, const uint8_t *bytes) {
  static const uint8_t decoder[] = {3};
  uint32_t capacity = number_at(bytes + 12);
  nghttp3_settings settings;
  memset(s, 0, sizeof *s);
  s->streams = number_at(bytes + 4);
  s->count = number_at(bytes + 8);
  bytes += 16;
  s->control = part_of(&bytes);
  s->encoder = part_of(&bytes);
  s->request = part_of(&bytes);
  s->response = part_of(&bytes);
  s->piece = part_of(&bytes);
  nghttp3_settings_default(&settings);
  settings.enable_connect_protocol = 1;
  settings.qpack_max_dtable_capacity = settings.qpack_encoder_max_dtable_capacity = capacity;
  settings.qpack_blocked_streams = capacity ? 16 : 0;
  if (nghttp3_conn_server_new(&s->conn, &callbacks, &settings, nghttp3_mem_default(), s)) return 0;
  nghttp3_conn_set_max_client_streams_bidi(s->conn, (uint64_t)1 << 60);
  if (nghttp3_conn_bind_control_stream(s->conn, OWN_CONTROL)) return 0;
  if (nghttp3_conn_bind_qpack_streams(s->conn, OWN_ENCODER, OWN_DECODER)) return 0;
  if (!come(s, CONTROL, s->control, 0) || !come(s, DECODER, (part){decoder, 1}, 0)) return 0;
  if (s->encoder.len && !come(s, ENCODER, s->encoder, 0)) return 0;
  if (!take(s)) return 0;
  for (const uint8_t *at = s->response.at; at < s->response.at + s->response.len; ++s->field_count) {
    part name = part_of(&at), value = part_of(&at);
    if (s->field_count == FIELDS) return 0;
    s->fields[s->field_count] = (nghttp3_nv){(uint8_t *)name.at, (uint8_t *)value.at, name.len, value.len,
                                             NGHTTP3_NV_FLAG_NO_COPY_NAME | NGHTTP3_NV_FLAG_NO_COPY_VALUE};
  }
  for (uint32_t n = 0; n < s->streams; ++n)
    if (!come(s, 4 * (int64_t)n, s->request, 0) || !take(s)) return 0;
  return 1;
}

/* Responds to a request, with content that is to come. */
static int respond(server *s, int64_t stream) {
  return !nghttp3_conn_submit_response(s->conn, stream, s->fields, s->field_count, &content);
}

static int respond_all(server *s, uint32_t count) {
  for (uint32_t n = 0; n < count; ++n)
    if (!respond(s, 4 * (int64_t)n) || !take(s)) return 0;
  return 1;
}

static int content_of(server *s) {
  uint32_t stream = 0;
  for (uint32_t n = 0; n < s->count; ++n) {
    if (!come(s, 4 * (int64_t)stream, s->piece, 0)) return 0;
    stream = stream + 1 < s->streams ? stream + 1 : 0;
  }
  return 1;
}

static int requests(server *s) {
  for (uint32_t n = 0; n < s->count; ++n)
    if (!come(s, 4 * ((int64_t)s->streams + n), s->request, 1) || !take(s)) return 0;
  return 1;
}

static int responses(server *s) { return respond_all(s, s->count); }

static int pieces(server *s) {
  if (!respond_all(s, s->streams)) return 0;
  for (uint32_t n = 0; n < s->count; ++n) {
    s->pieces = 1;
    if (nghttp3_conn_resume_stream(s->conn, 0) || !take(s)) return 0;
  }
  return 1;
}

static int opened(server *s) {
  for (uint32_t n = 0; n < s->count; ++n) {
    int64_t stream = 4 * ((int64_t)s->streams + n);
    if (!come(s, stream, (part){s->request.at, 1}, 0) || !take(s)) return 0;
    if (nghttp3_conn_close_stream(s->conn, stream, NGHTTP3_H3_REQUEST_CANCELLED)) return 0;
  }
  return 1;
}

static int exchanges(server *s) {
  s->ends = 1;
  for (uint32_t n = 0; n < s->count; ++n) {
    int64_t stream = 4 * ((int64_t)s->streams + n);
    s->pieces = 1;
    if (!come(s, stream, s->request, 1) || !respond(s, stream) || !take(s)) return 0;
    if (nghttp3_conn_close_stream(s->conn, stream, NGHTTP3_H3_NO_ERROR)) return 0;
  }
  return 1;
}

/* What a call returns that does this on a connection of an input. */
static int64_t answer(const uint8_t *bytes, int (*act)(server *)) {
  server s;
  int64_t sum = make(&s, bytes) && act(&s) ? s.sum : -1;
  nghttp3_conn_del(s.conn);
  return sum;
}

#define WHOLE(NAME, ACT)                                                                                               \
  int64_t bench_whole_##NAME(const uint8_t *bytes, size_t len) {                                                       \
    (void)len;                                                                                                         \
    return answer(bytes, ACT);                                                                                         \
  }

WHOLE(content, content_of)
WHOLE(requests, requests)
WHOLE(responses, responses)
WHOLE(send, pieces)
WHOLE(send_owned, pieces)
WHOLE(open, opened)
WHOLE(exchange, exchanges)
