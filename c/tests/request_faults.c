/* The first fault of a request: RFC 9114, section 4.3.1; RFC 9220, section 3. The names are those of
   the Rust crate. */
#include "wtransport.h"
#include "check.h"

enum { LINES = 6 };

typedef struct {
  const char *name, *value;
} line;

/* Writes the section of lines, up to one with no name. */
static size_t section_of(const line *lines, uint8_t *out, size_t room) {
  wt_field fields[LINES];
  uint8_t texts[256];
  size_t count = 0, at = 0, used = 0;
  for (; lines[count].name != NULL; count++) {
    size_t name = strlen(lines[count].name), value = strlen(lines[count].value);
    fields[count].name_offset = at;
    fields[count].name_length = name;
    fields[count].value_offset = at + name;
    fields[count].value_length = value;
    memcpy(texts + at, lines[count].name, name);
    memcpy(texts + at + name, lines[count].value, value);
    at += name + value;
  }
  CHECK(wt_fields_write(fields, count, texts, at, out, room, &used) == WT_OK);
  return used;
}

static const struct {
  line lines[LINES];
  int fault;
  const char *name;
} rows[] = {
    {{{":scheme", "https"}, {":path", "/"}}, WT_REQUEST_MISSING_METHOD, "MissingMethod"},
    {{{":method", "GET"}}, WT_REQUEST_METHOD_NOT_CONNECT, "MethodNotConnect"},
    {{{":method", "connect"}}, WT_REQUEST_METHOD_NOT_CONNECT, "MethodNotConnect"},
    {{{":method", "CONNECT"}, {":path", "/"}}, WT_REQUEST_MISSING_SCHEME, "MissingScheme"},
    {{{":method", "CONNECT"}, {":scheme", "http"}}, WT_REQUEST_SCHEME_NOT_HTTPS, "SchemeNotHttps"},
    {{{":method", "CONNECT"}, {":scheme", "https"}}, WT_REQUEST_MISSING_PROTOCOL, "MissingProtocol"},
    {{{":method", "CONNECT"}, {":scheme", "https"}, {":protocol", "websocket"}},
     WT_REQUEST_PROTOCOL_NOT_WEBTRANSPORT, "ProtocolNotWebTransport"},
    {{{":method", "CONNECT"}, {":scheme", "https"}, {":protocol", "webtransport"}, {":path", "/"}},
     WT_REQUEST_MISSING_AUTHORITY, "MissingAuthority"},
    {{{":method", "CONNECT"}, {":scheme", "https"}, {":protocol", "webtransport"}, {":authority", "a"}},
     WT_REQUEST_MISSING_PATH, "MissingPath"},
    {{{":method", "CONNECT"}, {":scheme", "https"}, {":protocol", "webtransport"}, {":authority", "a"},
      {":path", "/"}}, WT_REQUEST_OK, ""},
};

static void test_name(int fault, const char *name) {
  char out[64];
  size_t used = UNCHANGED, size = strlen(name);
  memset(out, '!', sizeof out);
  CHECK(wt_request_fault_name(fault, out, sizeof out, &used) == WT_OK);
  CHECK(used == size && memcmp(out, name, size) == 0 && out[size] == '!');
  CHECK(wt_request_fault_name(fault, out, size - 1, &used) == WT_BUFFER_TOO_SMALL && used == size);
  CHECK(wt_request_fault_name(fault, NULL, 0, &used) == WT_BUFFER_TOO_SMALL && used == size);
}

static void test_row(size_t row) {
  uint8_t section[256], parts[64];
  size_t size = section_of(rows[row].lines, section, sizeof section), authority, used;
  int fault = UNCHANGED;
  uint64_t code = UNCHANGED;
  uint8_t *copy = exactly(section, size);
  CHECK(wt_request_check(copy, size, &fault, &code) == WT_OK);
  CHECK(fault == rows[row].fault && code == UNCHANGED);
  CHECK(wt_request_read(copy, size, parts, sizeof parts, &authority, &used, &code) ==
        (fault == WT_REQUEST_OK ? WT_OK : WT_ERROR));
  CHECK(code == (fault == WT_REQUEST_OK ? UNCHANGED : WT_H3_MESSAGE_ERROR));
  if (fault != WT_REQUEST_OK) test_name(fault, rows[row].name);
  free(copy);
}

void test_request_faults(void) {
  int fault = UNCHANGED;
  uint64_t code = UNCHANGED;
  size_t used = UNCHANGED;
  for (size_t row = 0; row < sizeof rows / sizeof rows[0]; row++) test_row(row);
  CHECK(wt_request_check((const uint8_t *)"\x00\x00\xff", 3, &fault, &code) == WT_ERROR);
  CHECK(fault == UNCHANGED && code == WT_QPACK_DECOMPRESSION_FAILED);
  CHECK(wt_request_check(NULL, 0, &fault, &code) == WT_ERROR && fault == UNCHANGED);
  CHECK(wt_request_fault_name(WT_REQUEST_OK, NULL, 0, &used) == WT_INVALID && used == UNCHANGED);
  CHECK(wt_request_fault_name(9, NULL, 0, &used) == WT_INVALID && used == UNCHANGED);
  CHECK(wt_request_fault_name(-1, NULL, 0, &used) == WT_INVALID && used == UNCHANGED);
}
