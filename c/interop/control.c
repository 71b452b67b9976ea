/* Settings, streams of QPACK and faults beside nghttp3. Argument: how often the stream of each row of settings is
   cut anew (default: 3000). */
#include "endpoint.h"
#include "peer.h"

/* Tells the frames of a unidirectional stream after its header, if it is of a type. */
static void read_stream(uint64_t type, const stream *s, transcript *t) {
  wt_stream_header header;
  size_t consumed;
  uint64_t code;
  if (wt_stream_header_read(s->bytes, s->size, &consumed, &header, &code) != WT_OK || header.type != type) return;
  if (type == WT_STREAM_CONTROL) {
    read_frames(WT_READ_CONTROL, s->bytes + consumed, s->size - consumed, t);
  } else if (consumed == s->size) {
    tell_end(t);
  }
}

static const struct {
  const char *name;
  uint64_t section, table, blocked;
  int extended;
} settings_rows[] = {
    {"settings: all 0", 0, 0, 0, 0},
    {"settings: numbers of one byte", 63, 1, 63, 1},
    {"settings: numbers of two bytes", 64, 4096, 100, 1},
    {"settings: numbers of four bytes", 16384, 65536, 16384, 0},
    {"settings: the largest number", 0x3fffffffffffffff, 4096, 16, 1},
};

/* The settings of nghttp3 are read here as they were given to it. */
static void read_settings(size_t row, int is_server, unsigned long times) {
  static peer writes;
  static transcript read, wanted;
  nghttp3_settings settings;
  nghttp3_settings_default(&settings);
  settings.max_field_section_size = settings_rows[row].section;
  settings.qpack_max_dtable_capacity = settings_rows[row].table;
  settings.qpack_blocked_streams = settings_rows[row].blocked;
  settings.enable_connect_protocol = settings_rows[row].extended;
  open_peer(&writes, is_server, &settings);
  take_written(&writes);
  wanted.size = 0;
  tell_setting(&wanted, 0x06, settings_rows[row].section);
  tell_setting(&wanted, 0x01, settings_rows[row].table);
  tell_setting(&wanted, 0x07, settings_rows[row].blocked);
  if (is_server && settings_rows[row].extended) tell_setting(&wanted, 0x08, 1);
  tell_end(&wanted);
  for (unsigned long i = 0; i < times; i++) {
    read.size = 0;
    read_stream(WT_STREAM_CONTROL, &writes.written[2 + is_server], &read);
    count_same(&read, &wanted, settings_rows[row].name, "nghttp3's settings");
  }
  close_peer(&writes);
}

/* The stream of an encoder whose first instruction sets the capacity of its table (RFC 9204, section 4.3.1):
   001, and the number in the 5 bits after it and in further bytes (RFC 7541, section 5.1). */
static void write_capacity(stream *s, uint64_t capacity) {
  uint8_t first = (uint8_t)(0x20 | (capacity < 31 ? capacity : 31));
  s->size = 0;
  append(s, "\x02", 1);
  append(s, &first, 1);
  if (capacity < 31) return;
  for (capacity -= 31; capacity >= 128; capacity >>= 7) {
    uint8_t byte = (uint8_t)(0x80 | (capacity & 127));
    append(s, &byte, 1);
  }
  first = (uint8_t)capacity;
  append(s, &first, 1);
}

static const message get = {
    .lines = {{":method", "GET"}, {":scheme", "https"}, {":authority", "example.com"}, {":path", "/"}}};
static const message good = {.lines = {{":status", "200"}}};

/* nghttp3's encoder announces the capacity that a peer's settings allow. */
static void announce_capacity(uint64_t capacity) {
  static peer server;
  static stream control, request, wanted;
  const wt_setting ours[] = {{0x07, 0}, {0x01, capacity}};
  nghttp3_settings settings;
  nghttp3_settings_default(&settings);
  open_peer(&server, 1, &settings);
  write_control(&control, ours, 2);
  write_message(&request, &get, 0, NULL);
  MUST(give(&server, 2, control.bytes, control.size, 0) == 0);
  MUST(give(&server, 0, request.bytes, request.size, 1) == 0);
  send_message(&server, 1, &good);
  write_capacity(&wanted, capacity);
  const stream *encoder = &server.written[7];
  count(encoder->size >= wanted.size && memcmp(encoder->bytes, wanted.bytes, wanted.size) == 0,
        "settings: capacity of the dynamic table", "nghttp3's encoder");
  close_peer(&server);
}

/* The QPACK streams that nghttp3 opens have their types, and no instruction where the peer allows no table. */
static void read_qpack_streams(int is_server) {
  static peer writes;
  static transcript read, wanted;
  nghttp3_settings settings;
  nghttp3_settings_default(&settings);
  open_peer(&writes, is_server, &settings);
  take_written(&writes);
  read.size = wanted.size = 0;
  read_stream(WT_STREAM_QPACK_ENCODER, &writes.written[6 + is_server], &read);
  read_stream(WT_STREAM_QPACK_DECODER, &writes.written[10 + is_server], &read);
  tell_end(&wanted);
  tell_end(&wanted);
  count_same(&read, &wanted, "streams of QPACK", is_server ? "server" : "client");
  close_peer(&writes);
}

/* ---- Faults ---- */

/* Frames that both refuse, with the code of the RFC. */
static const struct {
  const char *name;
  uint8_t kind;
  const char *bytes;
  size_t size;
  uint64_t code;
} faults[] = {
    {"SETTINGS on a request stream (7.2.4)", WT_READ_BI_REMOTE, "\x04\x00", 2, WT_H3_FRAME_UNEXPECTED},
    {"HEADERS on the control stream (7.2.2)", WT_READ_CONTROL, "\x04\x00\x01\x00", 4, WT_H3_FRAME_UNEXPECTED},
    {"DATA on the control stream (7.2.1)", WT_READ_CONTROL, "\x04\x00\x00\x00", 4, WT_H3_FRAME_UNEXPECTED},
    {"a setting of HTTP/2 (7.2.4.1)", WT_READ_CONTROL, "\x04\x02\x02\x00", 4, WT_H3_SETTINGS_ERROR},
    {"a setting that is cut (7.1)", WT_READ_CONTROL, "\x04\x01\x06", 3, WT_H3_FRAME_ERROR},
    {"a request with a field section that is cut (RFC 9204, 2.2)", WT_READ_BI_REMOTE, "\x01\x01\x00", 3,
     WT_QPACK_DECOMPRESSION_FAILED},
    {"a static index out of range (RFC 9204, 3.1)", WT_READ_BI_REMOTE, "\x01\x04\x00\x00\xff\x24", 6,
     WT_QPACK_DECOMPRESSION_FAILED},
};

/* The first fault of a transcript, or 0. */
static uint64_t fault_of(const transcript *t) {
  uint64_t code = 0;
  for (size_t at = 0, size; at < t->size; at += 1 + sizeof size + size) {
    memcpy(&size, t->bytes + at + 1, sizeof size);
    if (t->bytes[at] != 'f') continue;
    memcpy(&code, t->bytes + at + 1 + sizeof size, sizeof code);
    return code;
  }
  return 0;
}

static void refuse(size_t row) {
  static peer server;
  static transcript read;
  static stream s;
  int is_control = faults[row].kind == WT_READ_CONTROL;
  nghttp3_settings settings;
  nghttp3_settings_default(&settings);
  open_peer(&server, 1, &settings);
  s.size = read.size = 0;
  if (is_control) write_header(&s, WT_STREAM_CONTROL);
  append(&s, faults[row].bytes, faults[row].size);
  count(give(&server, is_control ? 2 : 0, s.bytes, s.size, 0) == faults[row].code, faults[row].name, "nghttp3");
  read_frames(faults[row].kind, (const uint8_t *)faults[row].bytes, faults[row].size, &read);
  count(fault_of(&read) == faults[row].code, faults[row].name, "ours");
  close_peer(&server);
}

int main(int argc, char **argv) {
  unsigned long times = argc > 1 ? strtoul(argv[1], NULL, 10) : 3000;
  for (int is_server = 0; is_server < 2; is_server++) {
    for (size_t row = 0; row < sizeof settings_rows / sizeof settings_rows[0]; row++) {
      read_settings(row, is_server, times);
    }
    read_qpack_streams(is_server);
  }
  for (uint64_t capacity = 1; capacity <= 4096; capacity *= 2) announce_capacity(capacity);
  for (size_t row = 0; row < sizeof faults / sizeof faults[0]; row++) refuse(row);
  printf("%lu passed, %lu failed\n", passed, failed);
  return failed > 0;
}
