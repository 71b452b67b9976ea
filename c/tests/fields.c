/* Field sections: RFC 9204, section 4.5 and appendices A and B; Huffman text of RFC 7541, appendix
   C.4.1. */
#include "wtransport.h"
#include "check.h"

static int is_line(const wt_field *field, const uint8_t *texts, const char *name,
                   const char *value) {
  return field->name_length == strlen(name) && field->value_length == strlen(value) &&
         memcmp(texts + field->name_offset, name, strlen(name)) == 0 &&
         memcmp(texts + field->value_offset, value, strlen(value)) == 0;
}

/* prefix; entry 17; the name of entry 1 and a value; the name of entry 0 and a Huffman value; a name
   and a value, twice, of which the second differs */
static const char section[] =
    "\x00\x00"
    "\xd1"
    "\x51\x0b/index.html"
    "\x50\x8c\xf1\xe3\xc2\xe5\xf2\x3a\x6b\xa0\xab\x90\xf4\xff"
    "\x23" "abc\x03xyz"
    "\x23" "abc\x00";

#define LINES 5
#define TEXTS (7 + 3 + 5 + 11 + 10 + 15 + 3 + 3 + 3)

static void faulty(const char *given, size_t size) {
  wt_field fields[4];
  uint8_t texts[256];
  size_t count = UNCHANGED, used = UNCHANGED;
  uint64_t code = UNCHANGED;
  uint8_t *bytes = exactly(given, size);
  CHECK(wt_fields_read(bytes, size, fields, 4, texts, sizeof texts, &count, &used, &code) ==
        WT_ERROR);
  CHECK(code == WT_QPACK_DECOMPRESSION_FAILED && count == UNCHANGED && used == UNCHANGED);
  free(bytes);
}

static void test_read(void) {
  wt_field fields[LINES + 1];
  uint8_t texts[TEXTS + 1];
  size_t size = sizeof section - 1, count = UNCHANGED, used = UNCHANGED;
  uint64_t code = UNCHANGED;
  uint8_t *bytes = exactly(section, size);
  texts[TEXTS] = 0xee;
  CHECK(wt_fields_read(bytes, size, fields, LINES, texts, TEXTS, &count, &used, &code) == WT_OK);
  CHECK(count == LINES && used == TEXTS && code == UNCHANGED && texts[TEXTS] == 0xee);
  CHECK(is_line(&fields[0], texts, ":method", "GET"));
  CHECK(is_line(&fields[1], texts, ":path", "/index.html"));
  CHECK(is_line(&fields[2], texts, ":authority", "www.example.com"));
  CHECK(is_line(&fields[3], texts, "abc", "xyz"));
  CHECK(is_line(&fields[4], texts, "abc", ""));
  CHECK(wt_fields_read(bytes, size, fields, LINES - 1, texts, TEXTS, &count, &used, &code) ==
        WT_BUFFER_TOO_SMALL);
  CHECK(count == LINES && used == TEXTS);
  CHECK(wt_fields_read(bytes, size, fields, LINES, texts, TEXTS - 1, &count, &used, &code) ==
        WT_BUFFER_TOO_SMALL);
  CHECK(count == LINES && used == TEXTS && code == UNCHANGED);
  CHECK(wt_fields_read(bytes, size, NULL, 0, NULL, 0, &count, &used, &code) == WT_BUFFER_TOO_SMALL);
  CHECK(count == LINES && used == TEXTS);
  CHECK(wt_fields_read(bytes, 2, NULL, 0, NULL, 0, &count, &used, &code) == WT_OK);
  CHECK(count == 0 && used == 0);
  free(bytes);
}

/* entry 15; the name of entry 0 and a Huffman value; a name and a value, both Huffman text: those of
   RFC 7541, appendices C.4.1 and C.4.3 */
static const char written[] =
    "\x00\x00"
    "\xcf"
    "\x50\x8c\xf1\xe3\xc2\xe5\xf2\x3a\x6b\xa0\xab\x90\xf4\xff"
    "\x2f\x01\x25\xa8\x49\xe9\x5b\xa9\x7d\x7f"
    "\x89\x25\xa8\x49\xe9\x5b\xb8\xe8\xb4\xbf";

/* entries 25 and 23; the name of entry 84 and a value, with the bit N; entry 84 */
static const char indexed[] = "\x00\x00\xd9\xd7\x7f\x45\x01" "a\xff\x15";

static void test_entries(void) {
  static const char texts[] = ":status200:schemehttpsauthorizationa";
  static const wt_field fields[] = {{0, 7, 7, 3}, {10, 7, 17, 5}, {22, 13, 35, 1}, {22, 13, 36, 0}};
  uint8_t out[32];
  size_t size = sizeof indexed - 1, used = UNCHANGED;
  CHECK(wt_fields_write(fields, 4, (const uint8_t *)texts, sizeof texts - 1, out, sizeof out, &used) == WT_OK);
  CHECK(used == size && memcmp(out, indexed, size) == 0);
}

static void test_write(void) {
  static const char texts[] = ":methodCONNECT:authoritywww.example.comcustom-keycustom-value\xff";
  static const wt_field fields[] = {{0, 7, 7, 7}, {14, 10, 24, 15}, {39, 10, 49, 12}};
  static const wt_field not_text = {0, 7, 61, 1};
  static const wt_field outside = {0, 7, 61, 2};
  static const wt_field far = {SIZE_MAX, SIZE_MAX, 0, 1};
  const uint8_t *given = (const uint8_t *)texts;
  size_t room = sizeof texts - 1, size = sizeof written - 1, used = UNCHANGED;
  uint8_t out[128];
  memset(out, 0xee, sizeof out);
  CHECK(wt_fields_write(fields, 3, given, room, out, sizeof out, &used) == WT_OK && used == size);
  CHECK(memcmp(out, written, size) == 0 && out[size] == 0xee);
  memset(out, 0xee, sizeof out);
  CHECK(wt_fields_write(fields, 3, given, room, out, size - 1, &used) == WT_BUFFER_TOO_SMALL && used == size);
  CHECK(out[0] == 0xee);
  CHECK(wt_fields_write(NULL, 0, NULL, 0, NULL, 0, &used) == WT_BUFFER_TOO_SMALL && used == 2);
  CHECK(wt_fields_write(NULL, 0, NULL, 0, out, 2, &used) == WT_OK && used == 2 && out[0] == 0);
  used = UNCHANGED;
  CHECK(wt_fields_write(&not_text, 1, given, room, out, sizeof out, &used) == WT_INVALID);
  CHECK(wt_fields_write(&outside, 1, given, room, out, sizeof out, &used) == WT_INVALID);
  CHECK(wt_fields_write(&far, 1, given, room, out, sizeof out, &used) == WT_INVALID && used == UNCHANGED);
}

void test_fields(void) {
  test_read();
  test_write();
  test_entries();
  faulty("", 0);
  faulty("\x00", 1);
  faulty("\x00\x00\x80", 3);     /* an entry of the dynamic table */
  faulty("\x00\x00\x10", 3);     /* the same, after the base */
  faulty("\x00\x00\xff\x24", 4); /* entry 99: the last one is 98 */
  faulty("\x00\x00\x51\x0b/", 5);
  faulty("\x00\x00\x50\x81\x00", 5); /* Huffman text that ends within a symbol, without its padding */
}
