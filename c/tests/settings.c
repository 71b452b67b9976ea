/* Settings: RFC 9114, section 7.2.4; identifiers of RFC 9220, section 3, and RFC 9297, section
   2.1.1. */
#include "wtransport.h"
#include "check.h"

static void faulty(const char *payload, size_t size, uint64_t expected) {
  wt_setting settings[4] = {{UNCHANGED, UNCHANGED}, {0, 0}, {0, 0}, {0, 0}};
  size_t count = UNCHANGED;
  uint64_t code = UNCHANGED;
  uint8_t *bytes = exactly(payload, size);
  CHECK(wt_settings_read(bytes, size, settings, 4, &count, &code) == WT_ERROR);
  CHECK(code == expected && count == UNCHANGED && settings[0].id == UNCHANGED && settings[0].value == UNCHANGED);
  free(bytes);
}

static int are(const wt_setting *settings, const wt_setting *expected, size_t count) {
  return memcmp(settings, expected, count * sizeof *settings) == 0;
}

static void test_read(void) {
  /* an unknown identifier, 0x0d, twice, and one reserved for exercise, 0x21 */
  static const char payload[] = "\x33\x01\x0d\x00\x08\x01\x0d\x05\x21\x40\x40";
  static const wt_setting expected[] = {
      {WT_SETTING_H3_DATAGRAM, 1}, {0x0d, 0}, {WT_SETTING_ENABLE_CONNECT_PROTOCOL, 1}, {0x0d, 5}, {0x21, 64}};
  wt_setting settings[6] = {{0, 0}, {0, 0}, {0, 0}, {0, 0}, {0, 0}, {UNCHANGED, UNCHANGED}};
  size_t count = UNCHANGED, size = sizeof payload - 1;
  uint64_t code = UNCHANGED;
  uint8_t *bytes = exactly(payload, size);
  CHECK(wt_settings_read(bytes, size, settings, 6, &count, &code) == WT_OK && count == 5);
  CHECK(are(settings, expected, 5) && settings[5].id == UNCHANGED && settings[5].value == UNCHANGED && code == UNCHANGED);
  memset(settings, 0, sizeof settings);
  CHECK(wt_settings_read(bytes, size, settings, 5, &count, &code) == WT_OK && count == 5);
  CHECK(are(settings, expected, 5));
  settings[0].id = UNCHANGED;
  CHECK(wt_settings_read(bytes, size, settings, 4, &count, &code) == WT_BUFFER_TOO_SMALL && count == 5);
  CHECK(settings[0].id == UNCHANGED);
  CHECK(wt_settings_read(bytes, size, NULL, 0, &count, &code) == WT_BUFFER_TOO_SMALL && count == 5 && code == UNCHANGED);
  free(bytes);
  CHECK(wt_settings_read(NULL, 0, NULL, 0, &count, &code) == WT_OK && count == 0);
  faulty("\x33", 1, WT_H3_FRAME_ERROR);
  faulty("\x33\x40", 2, WT_H3_FRAME_ERROR);
  faulty("\x0d\x00\x33", 3, WT_H3_FRAME_ERROR);
  faulty("\x33\x01\x33\x01", 4, WT_H3_SETTINGS_ERROR);
  faulty("\x33\x01\x0d\x00\x33\x01", 6, WT_H3_SETTINGS_ERROR);
  faulty("\x21\x01\x21\x01", 4, WT_H3_SETTINGS_ERROR);
  faulty("\x00\x00", 2, WT_H3_SETTINGS_ERROR);
  faulty("\x02\x00", 2, WT_H3_SETTINGS_ERROR);
  faulty("\x05\x00", 2, WT_H3_SETTINGS_ERROR);
}

static void test_write(void) {
  static const wt_setting good[] = {{WT_SETTING_H3_DATAGRAM, 1},
                                    {WT_SETTING_ENABLE_CONNECT_PROTOCOL, 1},
                                    {WT_SETTING_WEBTRANSPORT_MAX_SESSIONS, 64}};
  static const wt_setting twice[] = {{WT_SETTING_H3_DATAGRAM, 1}, {WT_SETTING_H3_DATAGRAM, 1}};
  static const wt_setting http2[] = {{0x04, 1}};
  static const wt_setting large[] = {{WT_SETTING_H3_DATAGRAM, UINT64_MAX}};
  static const wt_setting unknown[] = {{0x0d, 0}, {0x0d, 5}};
  uint8_t out[32];
  size_t used = UNCHANGED;
  memset(out, 0xee, sizeof out);
  CHECK(wt_settings_write(good, 3, out, sizeof out, &used) == WT_OK && used == 14);
  CHECK(memcmp(out, "\x33\x01\x08\x01\xc0\x00\x00\x00\xc6\x71\x70\x6a\x40\x40", 14) == 0);
  CHECK(out[14] == 0xee);
  memset(out, 0xee, sizeof out);
  CHECK(wt_settings_write(good, 3, out, 13, &used) == WT_BUFFER_TOO_SMALL && used == 14 && out[0] == 0xee);
  CHECK(wt_settings_write(NULL, 0, NULL, 0, &used) == WT_OK && used == 0);
  CHECK(wt_settings_write(unknown, 2, out, sizeof out, &used) == WT_OK && used == 4);
  CHECK(memcmp(out, "\x0d\x00\x0d\x05", 4) == 0);
  used = UNCHANGED;
  CHECK(wt_settings_write(twice, 2, out, sizeof out, &used) == WT_INVALID && used == UNCHANGED);
  CHECK(wt_settings_write(http2, 1, out, sizeof out, &used) == WT_INVALID && used == UNCHANGED);
  CHECK(wt_settings_write(large, 1, out, sizeof out, &used) == WT_INVALID && used == UNCHANGED);
}

static void named(uint64_t id, uint64_t constant, const char *name) {
  char out[64];
  size_t used = UNCHANGED, size = strlen(name);
  CHECK(id == constant && wt_setting_name(id, out, sizeof out, &used) == WT_OK);
  CHECK(used == size && memcmp(out, name, size) == 0);
  CHECK(wt_setting_name(id, out, size - 1, &used) == WT_BUFFER_TOO_SMALL && used == size);
}

void test_settings(void) {
  size_t used = UNCHANGED;
  test_read();
  test_write();
  named(0x01, WT_SETTING_QPACK_MAX_TABLE_CAPACITY, "SETTINGS_QPACK_MAX_TABLE_CAPACITY");
  named(0x06, WT_SETTING_MAX_FIELD_SECTION_SIZE, "SETTINGS_MAX_FIELD_SECTION_SIZE");
  named(0x07, WT_SETTING_QPACK_BLOCKED_STREAMS, "SETTINGS_QPACK_BLOCKED_STREAMS");
  named(0x08, WT_SETTING_ENABLE_CONNECT_PROTOCOL, "SETTINGS_ENABLE_CONNECT_PROTOCOL");
  named(0x33, WT_SETTING_H3_DATAGRAM, "SETTINGS_H3_DATAGRAM");
  named(0x2b603742, WT_SETTING_ENABLE_WEBTRANSPORT, "SETTINGS_ENABLE_WEBTRANSPORT");
  named(0xc671706a, WT_SETTING_WEBTRANSPORT_MAX_SESSIONS, "SETTINGS_WEBTRANSPORT_MAX_SESSIONS");
  named(0x21, 0x21, "0x21");
  named(0x3ffffffffffffffe, 0x3ffffffffffffffe, "0x3ffffffffffffffe");
  CHECK(wt_setting_name(0x02, NULL, 0, &used) == WT_INVALID && used == UNCHANGED);
  CHECK(wt_setting_name(UINT64_MAX, NULL, 0, &used) == WT_INVALID && used == UNCHANGED);
}
