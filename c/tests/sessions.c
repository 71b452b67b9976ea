/* Requests and responses: RFC 9220, section 3; RFC 9114, sections 4.1.2, 4.3.1 and 4.3.2. Static
   entries are those of RFC 9204, appendix A. */
#include "wtransport.h"
#include "check.h"

static const char url[] = "https://example.com:4433/chat?room=1";
static const char texts[] = "originhttps://example.com:path\xffOrigin\r\n";
static const wt_field origin = {0, 6, 6, 19};
static const wt_field latin1 = {0, 6, 30, 1};
static const wt_field rejected[] = {
    {25, 5, 0, 6},  /* :path */
    {26, 0, 0, 6},  /* an empty name */
    {31, 6, 0, 6},  /* Origin */
    {12, 3, 0, 6},  /* //e, no token */
    {10, 2, 0, 6},  /* s:, no token */
    {0, 6, 37, 1},  /* CR */
    {0, 6, 38, 1},  /* LF */
    {0, 6, 39, 1},  /* NUL */
    {0, 6, 39, 2},  /* outside of the texts */
    {SIZE_MAX, 1, 0, 6},
    {0, 6, 40, SIZE_MAX},
};

static int is_line(const wt_field *field, const uint8_t *bytes, const char *name,
                   const char *value) {
  return field->name_length == strlen(name) && field->value_length == strlen(value) &&
         memcmp(bytes + field->name_offset, name, strlen(name)) == 0 &&
         memcmp(bytes + field->value_offset, value, strlen(value)) == 0;
}

static int request(const char *at, size_t size, const wt_field *fields, size_t count, uint8_t *out,
                   size_t room, size_t *used) {
  return wt_request_write((const uint8_t *)at, size, fields, count, (const uint8_t *)texts,
                          sizeof texts, out, room, used);
}

static void test_request_lines(const uint8_t *frame, size_t size) {
  wt_field fields[8];
  uint8_t bytes[256];
  size_t count, used, consumed;
  uint64_t code;
  wt_reader reader;
  wt_frame found;
  CHECK(wt_reader_new(WT_READ_BI_REMOTE, &reader) == WT_OK);
  CHECK(wt_read_frame(&reader, frame, size, &consumed, &found, &code) == WT_OK);
  CHECK(found.type == WT_FRAME_HEADERS && consumed == size);
  CHECK(wt_fields_read(frame + found.offset, found.length, fields, 8, bytes, sizeof bytes, &count,
                       &used, &code) == WT_OK);
  CHECK(count == 6);
  CHECK(is_line(&fields[0], bytes, ":method", "CONNECT"));
  CHECK(is_line(&fields[1], bytes, ":scheme", "https"));
  CHECK(is_line(&fields[2], bytes, ":protocol", "webtransport"));
  CHECK(is_line(&fields[3], bytes, ":authority", "example.com:4433"));
  CHECK(is_line(&fields[4], bytes, ":path", "/chat?room=1"));
  CHECK(is_line(&fields[5], bytes, "origin", "https://example.com"));
}

static void test_request(void) {
  uint8_t out[256], parts[64];
  size_t size = sizeof url - 1, used = UNCHANGED, authority = UNCHANGED, both = UNCHANGED, head;
  uint64_t code = UNCHANGED;
  uint8_t *copy;
  CHECK(request(url, size, &origin, 1, out, sizeof out, &used) == WT_OK);
  test_request_lines(out, used);
  head = wt_varint_size(used - 3) + 1; /* the type and the length of a payload */
  copy = exactly(out + head, used - head);
  CHECK(wt_request_read(copy, used - head, parts, 28, &authority, &both, &code) == WT_OK);
  CHECK(authority == 16 && both == 28 && memcmp(parts, "example.com:4433/chat?room=1", 28) == 0);
  CHECK(wt_request_read(copy, used - head, parts, 27, &authority, &both, &code) == WT_BUFFER_TOO_SMALL && both == 28);
  CHECK(wt_request_read(copy, used - head, NULL, 0, &authority, &both, &code) == WT_BUFFER_TOO_SMALL && code == UNCHANGED);
  CHECK(wt_request_read(copy, used - head - 1, parts, 64, &authority, &both, &code) == WT_ERROR && code == WT_QPACK_DECOMPRESSION_FAILED);
  free(copy);
  CHECK(wt_request_read((const uint8_t *)"\x00\x00\xd1", 3, parts, 64, &authority, &both, &code) ==
        WT_ERROR && code == WT_H3_MESSAGE_ERROR); /* a GET */
  CHECK(request(url, size, &origin, 1, out, used - 1, &both) == WT_BUFFER_TOO_SMALL && both == used);
  CHECK(request(url, size, NULL, 0, NULL, 0, &both) == WT_BUFFER_TOO_SMALL);
  both = UNCHANGED;
  CHECK(request("http://example.com/", 19, NULL, 0, out, sizeof out, &both) == WT_INVALID);
  CHECK(request("https://", 8, NULL, 0, out, sizeof out, &both) == WT_INVALID);
  CHECK(request("\xff", 1, NULL, 0, out, sizeof out, &both) == WT_INVALID);
  CHECK(request(NULL, 0, NULL, 0, out, sizeof out, &both) == WT_INVALID);
  for (size_t i = 0; i < sizeof rejected / sizeof rejected[0]; i++) {
    CHECK(request(url, size, &rejected[i], 1, out, sizeof out, &both) == WT_INVALID);
  }
  CHECK(both == UNCHANGED);
  /* a value that is not UTF-8 is written, and does not hide the request */
  CHECK(request(url, size, &latin1, 1, out, sizeof out, &used) == WT_OK);
  head = wt_varint_size(used - 3) + 1;
  CHECK(wt_request_read(out + head, used - head, parts, 28, &authority, &both, &code) == WT_OK);
  CHECK(authority == 16 && both == 28);
}

/* two set-cookie fields with another between them, in the caller's order */
static void test_repeated(void) {
  static const char cookies[] = "set-cookiea=1servertestb=2";
  static const wt_field fields[] = {{0, 10, 10, 3}, {13, 6, 19, 4}, {0, 10, 23, 3}};
  wt_field lines[8];
  uint8_t out[128], bytes[128];
  size_t size, count, used;
  uint64_t code;
  CHECK(wt_response_write(404, fields, 3, (const uint8_t *)cookies, sizeof cookies - 1, out, sizeof out,
                          &size) == WT_OK);
  CHECK(wt_fields_read(out + 2, size - 2, lines, 8, bytes, sizeof bytes, &count, &used, &code) == WT_OK);
  CHECK(count == 4 && is_line(&lines[0], bytes, ":status", "404"));
  CHECK(is_line(&lines[1], bytes, "set-cookie", "a=1") && is_line(&lines[2], bytes, "server", "test"));
  CHECK(is_line(&lines[3], bytes, "set-cookie", "b=2"));
}

/* the code of the response whose :status is this text, with a field that is not UTF-8; or 0 */
static uint64_t status_of(const char *text, uint16_t *status) {
  uint8_t section[32] = {0, 0, 0x5f, 0x09}; /* the name of static entry 24, :status */
  size_t size = strlen(text);
  uint64_t code = 0;
  section[4] = (uint8_t)size;
  memcpy(section + 5, text, size);
  memcpy(section + 5 + size, "\x21x\x04" "caf\xe9", 7);
  return wt_response_read(section, size + 12, status, &code) == WT_OK ? 0 : code;
}

static void test_status(void) {
  static const char *const faulty[] = {"", "2", "20", "0200", "+200", "2000", "-20", " 20", "20x", "099", "600"};
  uint16_t status = UNCHANGED;
  CHECK(status_of("100", &status) == 0 && status == 100);
  CHECK(status_of("200", &status) == 0 && status == 200);
  CHECK(status_of("599", &status) == 0 && status == 599);
  status = UNCHANGED;
  for (size_t i = 0; i < sizeof faulty / sizeof faulty[0]; i++) {
    CHECK(status_of(faulty[i], &status) == WT_H3_MESSAGE_ERROR && status == UNCHANGED);
  }
}

static void test_response(void) {
  uint8_t out[64];
  size_t used = UNCHANGED;
  uint16_t read = UNCHANGED;
  uint64_t code = UNCHANGED;
  CHECK(wt_response_write(200, NULL, 0, NULL, 0, out, sizeof out, &used) == WT_OK && used == 5);
  /* static entry 25 */
  CHECK(memcmp(out, "\x01\x03\x00\x00\xd9", 5) == 0);
  CHECK(wt_response_write(200, NULL, 0, NULL, 0, out, 4, &used) == WT_BUFFER_TOO_SMALL && used == 5);
  CHECK(wt_response_write(200, &origin, 1, (const uint8_t *)texts, sizeof texts, out, sizeof out,
                          &used) == WT_OK && used > 5);
  CHECK(wt_response_read(out + 2, used - 2, &read, &code) == WT_OK && read == 200 && code == UNCHANGED);
  CHECK(wt_response_write(200, &latin1, 1, (const uint8_t *)texts, sizeof texts, out, sizeof out,
                          &used) == WT_OK);
  CHECK(wt_response_read(out + 2, used - 2, &read, &code) == WT_OK && read == 200 && code == UNCHANGED);
  CHECK(wt_response_write(599, NULL, 0, NULL, 0, out, sizeof out, &used) == WT_OK);
  CHECK(wt_response_read(out + 2, used - 2, &read, &code) == WT_OK && read == 599);
  used = read = UNCHANGED;
  CHECK(wt_response_write(99, NULL, 0, NULL, 0, out, sizeof out, &used) == WT_INVALID);
  CHECK(wt_response_write(600, NULL, 0, NULL, 0, out, sizeof out, &used) == WT_INVALID);
  for (size_t i = 0; i < sizeof rejected / sizeof rejected[0]; i++) {
    CHECK(wt_response_write(200, &rejected[i], 1, (const uint8_t *)texts, sizeof texts, out, sizeof out,
                            &used) == WT_INVALID && used == UNCHANGED);
  }
  CHECK(wt_response_read((const uint8_t *)"\x00\x00\xd1", 3, &read, &code) == WT_ERROR);
  CHECK(read == UNCHANGED && code == WT_H3_MESSAGE_ERROR);
  CHECK(wt_response_read(NULL, 0, &read, &code) == WT_ERROR && code == WT_QPACK_DECOMPRESSION_FAILED);
}

void test_sessions(void) {
  test_request();
  test_response();
  test_repeated();
  test_status();
}
