/* A connection of nghttp3, with no network: what it reads on a client's bidirectional stream is told to a
   transcript of that stream, and what it writes is kept by stream ID. */
#ifndef PEER_H
#define PEER_H
#include "messages.h"
#include <nghttp3/nghttp3.h>

enum { EXCHANGED = 6, STREAMS = 24 }; /* messages of a connection, and numbers of streams */

/* A message that is sent: its next DATA frame, and the place of that frame's payload in the content. */
typedef struct {
  const message *message;
  size_t frame, at;
  uint8_t payload[FRAMES][4096];
} sending;

typedef struct {
  nghttp3_conn *connection;
  transcript read[EXCHANGED]; /* by a fourth of the stream's ID, as below */
  size_t sections[EXCHANGED]; /* that were read */
  int ended[EXCHANGED];       /* whether the end of the stream was read */
  sending sends[EXCHANGED];
  stream written[STREAMS];
  int finished[STREAMS]; /* whether the stream ends after that */
} peer;

static transcript *read_of(void *p, int64_t id) {
  MUST(id % 4 == 0 && id / 4 < EXCHANGED);
  return &((peer *)p)->read[id / 4];
}

static int on_line(nghttp3_conn *connection, int64_t id, int32_t token, nghttp3_rcbuf *name,
                   nghttp3_rcbuf *value, uint8_t flags, void *data, void *of_stream) {
  nghttp3_vec n = nghttp3_rcbuf_get_buf(name), v = nghttp3_rcbuf_get_buf(value);
  (void)connection, (void)token, (void)flags, (void)of_stream;
  tell_line(read_of(data, id), n.base, n.len, v.base, v.len);
  return 0;
}

static int on_section_end(nghttp3_conn *connection, int64_t id, int fin, void *data, void *of_stream) {
  (void)connection, (void)fin, (void)of_stream;
  tell_section_end(read_of(data, id));
  ((peer *)data)->sections[id / 4]++;
  return 0;
}

static int on_data(nghttp3_conn *connection, int64_t id, const uint8_t *bytes, size_t size, void *data,
                   void *of_stream) {
  (void)connection, (void)of_stream;
  tell_content(read_of(data, id), bytes, size);
  return 0;
}

static int on_end(nghttp3_conn *connection, int64_t id, void *data, void *of_stream) {
  (void)connection, (void)of_stream;
  tell_end(read_of(data, id));
  ((peer *)data)->ended[id / 4] = 1;
  return 0;
}

/* Opens a connection with its control stream and its two streams of QPACK. */
static void open_peer(peer *p, int is_server, const nghttp3_settings *settings) {
  nghttp3_callbacks calls = {0};
  int64_t by_server = is_server ? 1 : 0;
  calls.recv_header = calls.recv_trailer = on_line;
  calls.end_headers = calls.end_trailers = on_section_end;
  calls.recv_data = on_data;
  calls.end_stream = on_end;
  for (size_t i = 0; i < EXCHANGED; i++) p->read[i].size = p->sections[i] = 0, p->ended[i] = 0;
  for (size_t i = 0; i < STREAMS; i++) p->written[i].size = 0, p->finished[i] = 0;
  if (is_server) {
    MUST(nghttp3_conn_server_new(&p->connection, &calls, settings, nghttp3_mem_default(), p) == 0);
    nghttp3_conn_set_max_client_streams_bidi(p->connection, 100);
  } else {
    MUST(nghttp3_conn_client_new(&p->connection, &calls, settings, nghttp3_mem_default(), p) == 0);
  }
  MUST(nghttp3_conn_bind_control_stream(p->connection, 2 + by_server) == 0);
  MUST(nghttp3_conn_bind_qpack_streams(p->connection, 6 + by_server, 10 + by_server) == 0);
}

static void close_peer(peer *p) { nghttp3_conn_del(p->connection); }

/* Gives a connection bytes of a stream. Returns 0, or the code of its fault. */
static uint64_t give(peer *p, int64_t id, const uint8_t *bytes, size_t size, int fin) {
  nghttp3_ssize answer = nghttp3_conn_read_stream(p->connection, id, bytes, size, fin);
  return answer < 0 ? nghttp3_err_infer_quic_app_error_code((int)answer) : 0;
}

/* Takes all that a connection has to write. */
static void take_written(peer *p) {
  for (;;) {
    nghttp3_vec pieces[16];
    int64_t id = -1;
    int fin = 0;
    size_t size = 0;
    nghttp3_ssize count = nghttp3_conn_writev_stream(p->connection, &id, &fin, pieces, 16);
    MUST(count >= 0 && id < STREAMS);
    if (id < 0) return;
    for (nghttp3_ssize i = 0; i < count; i++) {
      append(&p->written[id], pieces[i].base, pieces[i].len);
      size += pieces[i].len;
    }
    p->finished[id] |= fin;
    MUST(nghttp3_conn_add_write_offset(p->connection, id, size) == 0);
    MUST(nghttp3_conn_add_ack_offset(p->connection, id, size) == 0);
  }
}

static size_t pairs_of(const line *lines, nghttp3_nv *pairs) {
  size_t count = 0;
  for (; lines[count].name != NULL; count++) {
    pairs[count].name = (uint8_t *)lines[count].name;
    pairs[count].namelen = strlen(lines[count].name);
    pairs[count].value = (uint8_t *)lines[count].value;
    pairs[count].valuelen = strlen(lines[count].value);
    pairs[count].flags = NGHTTP3_NV_FLAG_NONE;
  }
  return count;
}

/* Hands out the payload of the next DATA frame, and the trailers after the last one. */
static nghttp3_ssize next_data(nghttp3_conn *connection, int64_t id, nghttp3_vec *pieces, size_t room,
                               uint32_t *flags, void *data, void *of_stream) {
  sending *s = &((peer *)data)->sends[id / 4];
  size_t size = s->message->data[s->frame];
  nghttp3_nv pairs[LINES];
  (void)of_stream;
  MUST(room > 0 && size <= sizeof s->payload[0]);
  if (size > 0) {
    for (size_t i = 0; i < size; i++) s->payload[s->frame][i] = content_at(s->at++);
    pieces[0].base = s->payload[s->frame++];
    pieces[0].len = size;
  }
  if (s->message->data[s->frame] == 0) {
    size_t count = pairs_of(s->message->trailers, pairs);
    *flags = NGHTTP3_DATA_FLAG_EOF | (count > 0 ? NGHTTP3_DATA_FLAG_NO_END_STREAM : 0);
    if (count > 0) MUST(nghttp3_conn_submit_trailers(connection, id, pairs, count) == 0);
  }
  return size > 0;
}

/* Submits a message on a stream: a client's request, or a server's response. */
static void submit_message(peer *p, int64_t id, int is_server, const message *m) {
  const nghttp3_data_reader source = {next_data};
  const nghttp3_data_reader *body = m->data[0] > 0 ? &source : NULL;
  nghttp3_nv pairs[LINES];
  size_t count = pairs_of(m->info, pairs);
  p->sends[id / 4].message = m;
  p->sends[id / 4].frame = p->sends[id / 4].at = 0;
  if (count > 0) MUST(nghttp3_conn_submit_info(p->connection, id, pairs, count) == 0);
  count = pairs_of(m->lines, pairs);
  MUST((is_server ? nghttp3_conn_submit_response(p->connection, id, pairs, count, body)
                  : nghttp3_conn_submit_request(p->connection, id, pairs, count, body, NULL)) == 0);
}

/* Writes a message on stream 0. */
static inline void send_message(peer *p, int is_server, const message *m) {
  submit_message(p, 0, is_server, m);
  take_written(p);
}
#endif
