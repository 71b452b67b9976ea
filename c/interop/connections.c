/* Connections beside nghttp3: the streams that its client and its server write are read here, and those that
   are written here are read by them. Each stream comes in pieces of random sizes, and nghttp3's come in random
   turns. Argument: how often each row is cut anew (default: 3000). */
#include "endpoint.h"
#include "exchanges.h"
#include "peer.h"

/* ---- What nghttp3 writes is read here ---- */

static void read_theirs(uint8_t kind, const stream *s, const message *m, const char *row, const char *what) {
  static transcript read, wanted;
  read.size = wanted.size = 0;
  read_frames(kind, s->bytes, s->size, &read);
  tell_message(&wanted, m);
  count_same(&read, &wanted, row, what);
}

/* The first frame of a stream. */
static wt_frame first_frame(uint8_t kind, const stream *s) {
  size_t consumed;
  uint64_t code;
  wt_reader reader;
  wt_frame frame;
  MUST(wt_reader_new(kind, &reader) == WT_OK);
  MUST(wt_read_frame(&reader, s->bytes, s->size, &consumed, &frame, &code) == WT_OK);
  return frame;
}

/* The request and the response of a session, read as such. */
static void read_session(const exchange *e, const stream *request, const stream *response) {
  char text[256] = "", wanted[256];
  size_t authority = 0, used = 0;
  uint16_t status = 0;
  uint64_t code;
  wt_frame frame = first_frame(WT_READ_BI_REMOTE, request);
  int answer = wt_request_read(request->bytes + frame.offset, frame.length, (uint8_t *)text, sizeof text - 1,
                               &authority, &used, &code);
  snprintf(wanted, sizeof wanted, "%s%s", value_of(&e->request, ":authority"), value_of(&e->request, ":path"));
  count(answer == WT_OK && authority == strlen(value_of(&e->request, ":authority")) &&
            used == strlen(wanted) && memcmp(text, wanted, used) == 0,
        e->name, "the request of nghttp3's session");
  frame = first_frame(WT_READ_BI_LOCAL, response);
  answer = wt_response_read(response->bytes + frame.offset, frame.length, &status, &code);
  snprintf(wanted, sizeof wanted, "%u", status);
  count(answer == WT_OK && strcmp(wanted, value_of(&e->response, ":status")) == 0, e->name,
        "the response of nghttp3's session");
}

/* Lets a client and a server of nghttp3 talk to one another; *client and *server have written it all then. */
static void talk(const exchange *e, peer *client, peer *server) {
  nghttp3_settings settings;
  nghttp3_settings_default(&settings);
  settings.enable_connect_protocol = 1;
  open_peer(client, 0, &settings);
  open_peer(server, 1, &settings);
  send_message(client, 0, &e->request);
  MUST(give(server, 2, client->written[2].bytes, client->written[2].size, 0) == 0);
  MUST(give(server, 0, client->written[0].bytes, client->written[0].size, 1) == 0);
  send_message(server, 1, &e->response);
}

static void we_read(const exchange *e, unsigned long times) {
  static peer client, server;
  talk(e, &client, &server);
  for (unsigned long i = 0; i < times; i++) {
    read_theirs(WT_READ_BI_REMOTE, &client.written[0], &e->request, e->name, "nghttp3's request");
    read_theirs(WT_READ_BI_LOCAL, &server.written[0], &e->response, e->name, "nghttp3's response");
  }
  if (e->url != NULL) read_session(e, &client.written[0], &server.written[0]);
  close_peer(&client);
  close_peer(&server);
}

/* ---- What is written here is read by nghttp3 ---- */

/* The streams of one side: the message on stream 0, control stream, the two of QPACK, and a reserved one. */
enum { SIDE = 5 };

static void write_side(stream *streams, const exchange *e, int is_server) {
  const wt_setting settings[] = {
      {WT_SETTING_ENABLE_CONNECT_PROTOCOL, 1}, {WT_SETTING_H3_DATAGRAM, 1}, {0x21 + 0x1f * 7, 9}};
  write_message(&streams[0], is_server ? &e->response : &e->request, e->url != NULL, is_server ? NULL : e->url);
  write_control(&streams[1], settings, 3);
  write_header(&streams[2], WT_STREAM_QPACK_ENCODER);
  write_header(&streams[3], WT_STREAM_QPACK_DECODER);
  write_header(&streams[4], reserved());
  append(&streams[4], content, sizeof content);
}

/* Gives the streams to a connection in random turns and pieces. Returns 0, or the code of its fault. */
static uint64_t give_in_turns(peer *p, const stream *streams, int is_server) {
  size_t at[SIDE] = {0}, left = SIDE;
  int done[SIDE] = {0};
  while (left > 0) {
    size_t i = below(SIDE), rest = streams[i].size - at[i];
    int64_t id = i == 0 ? 0 : (int64_t)(4 * i - 2) + is_server;
    size_t size = rest == 0 ? 0 : 1 + below(rest < 700 ? rest : 700);
    if (done[i]) continue;
    /* only stream 0 ends: the others are critical, or are not read */
    uint64_t code = give(p, id, streams[i].bytes + at[i], size, i == 0 && size == rest);
    if (code != 0) return code;
    at[i] += size;
    if (at[i] == streams[i].size) done[i] = 1, left--;
  }
  return 0;
}

static void they_read(const exchange *e, int is_server) {
  static peer reads;
  static stream streams[SIDE];
  static transcript wanted;
  nghttp3_settings settings;
  nghttp3_settings_default(&settings);
  settings.enable_connect_protocol = 1;
  open_peer(&reads, !is_server, &settings);
  if (is_server) send_message(&reads, 0, &e->request);
  write_side(streams, e, is_server);
  uint64_t code = give_in_turns(&reads, streams, is_server);
  if (code != 0) tell_fault(&reads.read[0], code);
  wanted.size = 0;
  tell_message(&wanted, is_server ? &e->response : &e->request);
  count_same(&reads.read[0], &wanted, e->name, is_server ? "our response" : "our request");
  close_peer(&reads);
}

int main(int argc, char **argv) {
  unsigned long times = argc > 1 ? strtoul(argv[1], NULL, 10) : 3000;
  for (size_t row = 0; row < EXCHANGES; row++) {
    we_read(&exchanges[row], times);
    for (unsigned long i = 0; i < times; i++) {
      they_read(&exchanges[row], 0);
      they_read(&exchanges[row], 1);
    }
  }
  for (unsigned long i = 0; i < times; i++) {
    exchange e = random_exchange();
    we_read(&e, 1);
    they_read(&e, 0);
    they_read(&e, 1);
  }
  printf("%lu passed, %lu failed\n", passed, failed);
  return failed > 0;
}
