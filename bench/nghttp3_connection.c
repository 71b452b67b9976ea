/* The calls of abi.h that read streams, over connections of nghttp3, which decode and check each field section. A
   connection is made once, at the first call, and each message is on its next stream: it is not made in the time that
   is measured, where ours is. */
#include "abi.h"
#include <nghttp3/nghttp3.h>
#include <stdlib.h>
#include <string.h>

/* A connection, the stream of its next message, and what was counted. */
typedef struct {
  nghttp3_conn *conn;
  int64_t next;
  int64_t fields; /* the sizes of the field lists */
  int64_t content;
} peer;

static int on_data(nghttp3_conn *conn, int64_t stream, const uint8_t *data, size_t len, void *user, void *its) {
  (void)conn, (void)stream, (void)data, (void)its;
  ((peer *)user)->content += (int64_t)len;
  return 0;
}

static int on_field(nghttp3_conn *conn, int64_t stream, int32_t token, nghttp3_rcbuf *name, nghttp3_rcbuf *value,
                    uint8_t flags, void *user, void *its) {
  (void)conn, (void)stream, (void)token, (void)flags, (void)its;
  ((peer *)user)->fields += (int64_t)(32 + nghttp3_rcbuf_get_buf(name).len + nghttp3_rcbuf_get_buf(value).len);
  return 0;
}

static const nghttp3_callbacks callbacks = {.recv_data = on_data, .recv_header = on_field, .recv_trailer = on_field};

/* Makes a server, or a client with its own streams. Returns whether there is one. */
static int make(peer *p, int is_server) {
  nghttp3_settings settings;
  if (p->conn) return 1;
  nghttp3_settings_default(&settings);
  settings.enable_connect_protocol = is_server;
  if (!is_server)
    return !nghttp3_conn_client_new(&p->conn, &callbacks, &settings, nghttp3_mem_default(), p) &&
           !nghttp3_conn_bind_control_stream(p->conn, 2) && !nghttp3_conn_bind_qpack_streams(p->conn, 6, 10);
  if (nghttp3_conn_server_new(&p->conn, &callbacks, &settings, nghttp3_mem_default(), p)) return 0;
  nghttp3_conn_set_max_client_streams_bidi(p->conn, (uint64_t)1 << 60);
  return 1;
}

/* Passes a stream in pieces of a size. Returns whether there was no error. */
static int pass(peer *p, int64_t stream, const uint8_t *bytes, size_t len, size_t piece, int fin) {
  for (size_t at = 0; at < len;) {
    size_t size = len - at < piece ? len - at : piece;
    if (nghttp3_conn_read_stream(p->conn, stream, bytes + at, size, fin && at + size == len) < 0) return 0;
    at += size;
  }
  return 1;
}

static int end(peer *p, int64_t stream) { return !nghttp3_conn_close_stream(p->conn, stream, NGHTTP3_H3_NO_ERROR); }

/* The next request of a server, in pieces of a size. Returns whether there was no error. */
static int request(peer *p, const uint8_t *bytes, size_t len, size_t piece) {
  int64_t stream = p->next;
  p->next += 4;
  p->fields = p->content = 0;
  return make(p, 1) && pass(p, stream, bytes, len, piece, 1) && end(p, stream);
}

int64_t bench_connection(const uint8_t *bytes, size_t len) {
  static peer server;
  return request(&server, bytes, len, BENCH_PIECE) ? server.content : -1;
}

int64_t bench_connection_whole(const uint8_t *bytes, size_t len) {
  static peer server;
  return request(&server, bytes, len, len) ? server.content : -1;
}

int64_t bench_content(const uint8_t *bytes, size_t len) {
  static peer server;
  return request(&server, bytes, len, BENCH_PIECE) ? server.fields + server.content : -1;
}

/* The first of parts, each of which is after its length in two bytes, highest first. */
static const uint8_t *part_of(const uint8_t **at, size_t *len) {
  const uint8_t *part = *at + 2;
  *len = (size_t)(*at)[0] * 256 + (*at)[1];
  *at = part + *len;
  return part;
}

/* Reads the peer's control stream, if it was not read yet, and skips it. Returns whether there was no error. */
static int control(peer *p, int is_server, const uint8_t **at) {
  size_t size;
  const uint8_t *part = part_of(at, &size);
  p->fields = p->content = 0;
  if (p->conn) return 1;
  return make(p, is_server) && pass(p, is_server ? 2 : 3, part, size, size, 0);
}

/* Reads requests, each whole on its own stream. Returns whether there was no error. */
static int requests(peer *p, const uint8_t *bytes, size_t len) {
  const uint8_t *at = bytes, *behind = bytes + len;
  if (!control(p, 1, &at)) return 0;
  while (at < behind) {
    size_t size;
    const uint8_t *part = part_of(&at, &size);
    int64_t stream = p->next;
    p->next += 4;
    if (!pass(p, stream, part, size, size, 1) || !end(p, stream)) return 0;
  }
  return 1;
}

int64_t bench_requests(const uint8_t *bytes, size_t len) {
  static peer server;
  return requests(&server, bytes + 4, len - 4) ? server.fields + server.content : -1;
}

int64_t bench_sessions(const uint8_t *bytes, size_t len) {
  static peer server;
  return requests(&server, bytes + 4, len - 4) ? server.fields : -1;
}

#define FIELD(NAME, VALUE)                                                                                             \
  {(uint8_t *)NAME, (uint8_t *)VALUE, sizeof NAME - 1, sizeof VALUE - 1,                                               \
   NGHTTP3_NV_FLAG_NO_COPY_NAME | NGHTTP3_NV_FLAG_NO_COPY_VALUE}

/* A client's stream begins by the call that submits its request, which is never encoded here, as no bytes are taken. */
int64_t bench_responses(const uint8_t *bytes, size_t len) {
  static peer client;
  static const nghttp3_nv asked[] = {FIELD(":method", "GET"), FIELD(":scheme", "https"), FIELD(":authority", "a"),
                                     FIELD(":path", "/")};
  const uint8_t *at = bytes + 4, *behind = bytes + len;
  if (!control(&client, 0, &at)) return -1;
  while (at < behind) {
    size_t size;
    const uint8_t *part = part_of(&at, &size);
    int64_t stream = client.next;
    client.next += 4;
    if (nghttp3_conn_submit_request(client.conn, stream, asked, 4, NULL, NULL)) return -1;
    if (!pass(&client, stream, part, size, size, 1) || !end(&client, stream)) return -1;
  }
  return client.fields + client.content;
}

int64_t bench_streams(const uint8_t *bytes, size_t len) {
  static peer server;
  uint32_t count;
  memcpy(&count, bytes + 4, 4);
  bytes += 8;
  len -= 8;
  server.fields = server.content = 0;
  if (!make(&server, 1)) return -1;
  for (int64_t n = 0; n < count; ++n)
    if (!pass(&server, server.next + 4 * n, bytes, len - 1, len, 0)) return -1;
  for (uint32_t n = 0; n < count; ++n, server.next += 4)
    if (!pass(&server, server.next, bytes + len - 1, 1, 1, 1) || !end(&server, server.next)) return -1;
  return server.fields + server.content;
}
