/* Error codes: RFC 9114, sections 8 and 8.1; RFC 9204, section 6; RFC 9297, section 5.2; WebTransport
   over HTTP/3, "Resetting Data Streams". */
#include "wtransport.h"
#include "check.h"

static void named(uint64_t code, const char *name, int scope) {
  char out[64];
  size_t used = UNCHANGED, size = strlen(name);
  memset(out, '!', sizeof out);
  CHECK(wt_code_name(code, out, sizeof out, &used) == WT_OK);
  CHECK(used == size && memcmp(out, name, size) == 0 && out[size] == '!');
  CHECK(wt_code_name(code, out, size - 1, &used) == WT_BUFFER_TOO_SMALL && used == size);
  CHECK(wt_code_name(code, NULL, 0, &used) == WT_BUFFER_TOO_SMALL && used == size);
  CHECK(wt_code_scope(code) == scope);
}

static void unknown(uint64_t code) {
  size_t used = UNCHANGED;
  CHECK(wt_code_name(code, NULL, 0, &used) == WT_INVALID && used == UNCHANGED);
  CHECK(wt_code_scope(code) == WT_INVALID);
}

/* The constant of the header, the number, the name and the scope of each code. */
static const struct {
  uint64_t code, number;
  const char *name;
  int scope;
} registered[] = {
    {WT_H3_DATAGRAM_ERROR, 0x33, "H3_DATAGRAM_ERROR", WT_SCOPE_EITHER},
    {WT_H3_NO_ERROR, 0x100, "H3_NO_ERROR", WT_SCOPE_EITHER},
    {WT_H3_GENERAL_PROTOCOL_ERROR, 0x101, "H3_GENERAL_PROTOCOL_ERROR", WT_SCOPE_EITHER},
    {WT_H3_INTERNAL_ERROR, 0x102, "H3_INTERNAL_ERROR", WT_SCOPE_EITHER},
    {WT_H3_STREAM_CREATION_ERROR, 0x103, "H3_STREAM_CREATION_ERROR", WT_SCOPE_EITHER},
    {WT_H3_CLOSED_CRITICAL_STREAM, 0x104, "H3_CLOSED_CRITICAL_STREAM", WT_SCOPE_CONNECTION},
    {WT_H3_FRAME_UNEXPECTED, 0x105, "H3_FRAME_UNEXPECTED", WT_SCOPE_CONNECTION},
    {WT_H3_FRAME_ERROR, 0x106, "H3_FRAME_ERROR", WT_SCOPE_CONNECTION},
    {WT_H3_EXCESSIVE_LOAD, 0x107, "H3_EXCESSIVE_LOAD", WT_SCOPE_CONNECTION},
    {WT_H3_ID_ERROR, 0x108, "H3_ID_ERROR", WT_SCOPE_CONNECTION},
    {WT_H3_SETTINGS_ERROR, 0x109, "H3_SETTINGS_ERROR", WT_SCOPE_CONNECTION},
    {WT_H3_MISSING_SETTINGS, 0x10a, "H3_MISSING_SETTINGS", WT_SCOPE_CONNECTION},
    {WT_H3_REQUEST_REJECTED, 0x10b, "H3_REQUEST_REJECTED", WT_SCOPE_STREAM},
    {WT_H3_REQUEST_CANCELLED, 0x10c, "H3_REQUEST_CANCELLED", WT_SCOPE_STREAM},
    {WT_H3_REQUEST_INCOMPLETE, 0x10d, "H3_REQUEST_INCOMPLETE", WT_SCOPE_STREAM},
    {WT_H3_MESSAGE_ERROR, 0x10e, "H3_MESSAGE_ERROR", WT_SCOPE_STREAM},
    {WT_H3_CONNECT_ERROR, 0x10f, "H3_CONNECT_ERROR", WT_SCOPE_STREAM},
    {WT_H3_VERSION_FALLBACK, 0x110, "H3_VERSION_FALLBACK", WT_SCOPE_EITHER},
    {WT_QPACK_DECOMPRESSION_FAILED, 0x200, "QPACK_DECOMPRESSION_FAILED", WT_SCOPE_CONNECTION},
    {WT_QPACK_ENCODER_STREAM_ERROR, 0x201, "QPACK_ENCODER_STREAM_ERROR", WT_SCOPE_CONNECTION},
    {WT_QPACK_DECODER_STREAM_ERROR, 0x202, "QPACK_DECODER_STREAM_ERROR", WT_SCOPE_CONNECTION},
    {WT_WEBTRANSPORT_BUFFERED_STREAM_REJECTED, 0x3994bd84, "WEBTRANSPORT_BUFFERED_STREAM_REJECTED", WT_SCOPE_STREAM},
    {WT_WEBTRANSPORT_SESSION_GONE, 0x170d7b68, "WEBTRANSPORT_SESSION_GONE", WT_SCOPE_STREAM},
    {WT_WT_FLOW_CONTROL_ERROR, 0x45d4487, "WT_FLOW_CONTROL_ERROR", WT_SCOPE_STREAM},
    {WT_WT_ALPN_ERROR, 0x817b3dd, "WT_ALPN_ERROR", WT_SCOPE_STREAM},
    {WT_WT_REQUIREMENTS_NOT_MET, 0x212c0d48, "WT_REQUIREMENTS_NOT_MET", WT_SCOPE_STREAM},
};

/* As the draft computes it. */
static uint64_t http3_of(uint32_t n) { return 0x52e4a40fa8dbu + n + n / 0x1e; }

void test_codes(void) {
  static const uint32_t codes[] = {0, 1, 29, 30, 31, 59, 60, 0x7fffffff, 0xffffffff};
  uint32_t back = UNCHANGED;
  for (size_t i = 0; i < sizeof registered / sizeof registered[0]; i++) {
    CHECK(registered[i].code == registered[i].number);
    named(registered[i].number, registered[i].name, registered[i].scope);
  }
  unknown(0x21);
  unknown(0xff);
  unknown(0x111);
  unknown(0x1ff);
  unknown(0x203);
  unknown(1ull << 62);
  unknown(UINT64_MAX);
  for (size_t i = 0; i < sizeof codes / sizeof codes[0]; i++) {
    uint64_t number = wt_application_code_to_http3(codes[i]);
    CHECK(number == http3_of(codes[i]));
    CHECK(wt_application_code_from_http3(number, &back) == WT_OK && back == codes[i]);
  }
  back = UNCHANGED;
  CHECK(wt_application_code_from_http3(0x52e4a40fa8da, &back) == WT_INVALID && back == UNCHANGED);
  CHECK(wt_application_code_from_http3(0x52e5ac983163, &back) == WT_INVALID && back == UNCHANGED);
  CHECK(wt_application_code_from_http3(UINT64_MAX, &back) == WT_INVALID && back == UNCHANGED);
  CHECK(wt_application_code_from_http3(0x52e4a40fa8f9, &back) == WT_INVALID); /* reserved */
}
