/* What nghttp3 says of messages. Each line of the input is what is read, a method and a HEADERS frame in
   hexadecimal: of a request (`request - HEX`) or of the response to a request with this method
   (`response METHOD HEX`). Answers with a line for each: the error code of HTTP/3, in decimal, or 0. */
#include <nghttp3/nghttp3.h>
#include <stdio.h>
#include <stdlib.h>
#include <string.h>

#define MUST(holds) \
  do { \
    if (!(holds)) { \
      fprintf(stderr, "%s:%d: %s\n", __FILE__, __LINE__, #holds); \
      exit(2); \
    } \
  } while (0)

static nghttp3_nv field(const char *name, const char *value) {
  nghttp3_nv nv = {.name = (uint8_t *)name,
                   .value = (uint8_t *)value,
                   .namelen = strlen(name),
                   .valuelen = strlen(value)};
  return nv;
}

/* A stream that is ended has the code of its error. */
static int on_error(nghttp3_conn *connection, int64_t id, uint64_t code, void *data, void *of_stream) {
  (void)connection, (void)id, (void)of_stream;
  *(uint64_t *)data = code;
  return 0;
}

static nghttp3_conn *open_connection(int is_server, uint64_t *code) {
  nghttp3_callbacks calls = {0};
  nghttp3_settings settings;
  nghttp3_conn *connection;
  int64_t by_server = is_server ? 1 : 0;
  calls.stop_sending = calls.reset_stream = on_error;
  nghttp3_settings_default(&settings);
  settings.enable_connect_protocol = 1;
  if (is_server) {
    MUST(nghttp3_conn_server_new(&connection, &calls, &settings, nghttp3_mem_default(), code) == 0);
    nghttp3_conn_set_max_client_streams_bidi(connection, 1);
  } else {
    MUST(nghttp3_conn_client_new(&connection, &calls, &settings, nghttp3_mem_default(), code) == 0);
  }
  MUST(nghttp3_conn_bind_control_stream(connection, 2 + by_server) == 0);
  MUST(nghttp3_conn_bind_qpack_streams(connection, 6 + by_server, 10 + by_server) == 0);
  return connection;
}

/* Sends a request with this method on stream 0. */
static void ask(nghttp3_conn *connection, const char *method) {
  nghttp3_nv fields[] = {field(":method", method), field(":scheme", "https"),
                         field(":authority", "example.com"), field(":path", "/"),
                         field(":protocol", "webtransport")};
  size_t count = strcmp(method, "SESSION") == 0 ? 5 : 4;
  if (count == 5) fields[0] = field(":method", "CONNECT");
  if (strcmp(method, "CONNECT") == 0) fields[1] = fields[2], count = 2;
  MUST(nghttp3_conn_submit_request(connection, 0, fields, count, NULL, NULL) == 0);
  for (;;) {
    nghttp3_vec pieces[16];
    int64_t id = -1;
    int fin = 0;
    nghttp3_ssize taken = nghttp3_conn_writev_stream(connection, &id, &fin, pieces, 16);
    size_t size = 0;
    MUST(taken >= 0);
    if (id < 0) return;
    for (nghttp3_ssize i = 0; i < taken; i++) size += pieces[i].len;
    MUST(nghttp3_conn_add_write_offset(connection, id, size) == 0);
  }
}

static size_t from_hex(const char *text, uint8_t *bytes) {
  size_t size = 0;
  unsigned byte;
  for (; sscanf(text, "%2x", &byte) == 1; text += 2) bytes[size++] = (uint8_t)byte;
  return size;
}

int main(void) {
  static char line[1 << 16], what[16], method[16], hex[1 << 16];
  static uint8_t bytes[1 << 15];
  while (fgets(line, sizeof line, stdin)) {
    MUST(sscanf(line, "%15s %15s %65535s", what, method, hex) == 3);
    int is_server = strcmp(what, "request") == 0;
    uint64_t code = 0;
    nghttp3_conn *connection = open_connection(is_server, &code);
    if (!is_server) ask(connection, method);
    nghttp3_ssize answer = nghttp3_conn_read_stream(connection, 0, bytes, from_hex(hex, bytes), 0);
    if (answer < 0) code = nghttp3_err_infer_quic_app_error_code((int)answer);
    printf("%llu\n", (unsigned long long)code);
    nghttp3_conn_del(connection);
  }
  return 0;
}
