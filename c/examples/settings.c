/* Lists the settings that a peer announces on its control stream, from standard input:
     printf '\x00\x04\x04\x08\x01\x33\x01' | settings
   prints "SETTINGS_ENABLE_CONNECT_PROTOCOL 1" and "SETTINGS_H3_DATAGRAM 1". */
#include <inttypes.h>
#include <stdio.h>
#include <wtransport.h>

static int refuse(const char *why, uint64_t code) {
  fprintf(stderr, "%s 0x%" PRIx64 "\n", why, code);
  return 2;
}

static int list(const uint8_t *payload, size_t length) {
  wt_setting settings[64];
  size_t count, size;
  uint64_t code = 0;
  if (wt_settings_read(payload, length, settings, 64, &count, &code) != WT_OK) return refuse("settings", code);
  for (size_t i = 0; i < count; i++) {
    char name[64];
    switch (wt_setting_name(settings[i].id, name, sizeof name, &size)) {
      case WT_OK: printf("%.*s %" PRIu64 "\n", (int)size, name, settings[i].value); break;
      case WT_INVALID: printf("0x%" PRIx64 " %" PRIu64 "\n", settings[i].id, settings[i].value); break;
      default: return 1;
    }
  }
  return 0;
}

int main(void) {
  uint8_t stream[8192];
  size_t size = fread(stream, 1, sizeof stream, stdin), at, consumed;
  uint64_t code = 0;
  wt_stream_header header;
  wt_reader reader;
  wt_frame frame;
  if (wt_stream_header_read(stream, size, &at, &header, &code) != WT_OK) return refuse("stream header", code);
  if (header.type != WT_STREAM_CONTROL) return refuse("stream of type", header.type);
  if (wt_reader_new(WT_READ_CONTROL, &reader) != WT_OK) return 1;
  if (wt_read_frame(&reader, stream + at, size - at, &consumed, &frame, &code) != WT_OK) return refuse("frame", code);
  if (frame.type != WT_FRAME_SETTINGS) return refuse("first frame of type", frame.type);
  return list(stream + at + frame.offset, frame.length);
}
