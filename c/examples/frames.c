/* Lists the frames of a stream that the peer opened, from standard input:
     printf '\x40\x41\x04' | frames        prints "WEBTRANSPORT 4" and "rest 0"
     printf '\x00\x03abc\x05' | frames     prints "DATA 3" and "rest 1"
   A stream in pieces is read with no more than WT_MAX_FRAME_REST bytes left over from one call to the next. */
#include <inttypes.h>
#include <stdio.h>
#include <string.h>
#include <wtransport.h>

/* So many bytes are read at a time. */
enum { PIECE = 1024 };

static void print_frame(const wt_frame *frame) {
  switch (frame->type) {
    case WT_FRAME_DATA: printf("DATA %zu\n", frame->length); break;
    case WT_FRAME_HEADERS: printf("HEADERS %zu\n", frame->length); break;
    case WT_FRAME_WEBTRANSPORT: printf("WEBTRANSPORT %" PRIu64 "\n", frame->session); break;
    default: printf("0x%" PRIx64 " %zu\n", frame->type, frame->length);
  }
}

static int print_fault(uint64_t code) {
  char name[64];
  size_t size;
  if (wt_code_name(code, name, sizeof name, &size) != WT_OK) return 1;
  printf("FAULT %.*s 0x%" PRIx64 "\n", (int)size, name, code);
  return 2;
}

int main(void) {
  uint8_t held[WT_MAX_FRAME_REST + PIECE];
  size_t size = 0, got, consumed;
  uint64_t code;
  wt_reader reader;
  wt_frame frame;
  if (wt_reader_new(WT_READ_BI_REMOTE, &reader) != WT_OK) return 1;
  while ((got = fread(held + size, 1, PIECE, stdin)) > 0) {
    int answer;
    size_t at = 0;
    size += got;
    while ((answer = wt_read_frame(&reader, held + at, size - at, &consumed, &frame, &code)) == WT_OK) {
      print_frame(&frame);
      at += consumed;
    }
    if (answer != WT_MORE) return print_fault(code);
    at += consumed;
    size -= at;
    memmove(held, held + at, size);
  }
  printf("rest %zu\n", size);
  return 0;
}
