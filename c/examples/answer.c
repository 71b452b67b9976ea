/* Answers the request for a session in standard input, which is what a client sends first on a
   bidirectional stream: writes the response to standard output, and what it read to standard error.
     printf '...' | answer | od -An -tx1 */
#include <stdio.h>
#include <string.h>
#include <wtransport.h>

static const char chat[] = "/chat";

static int respond(unsigned status) {
  uint8_t out[64];
  size_t size;
  if (wt_response_write(status, NULL, 0, NULL, 0, out, sizeof out, &size) != WT_OK) return 1;
  return fwrite(out, 1, size, stdout) != size;
}

int main(void) {
  uint8_t stream[8192], texts[8192];
  size_t size, consumed, authority, used;
  uint64_t code;
  wt_reader reader;
  wt_frame frame;
  size = fread(stream, 1, sizeof stream, stdin);
  wt_reader_new(WT_READ_BI_REMOTE, &reader);
  switch (wt_read_frame(&reader, stream, size, &consumed, &frame, &code)) {
    case WT_OK: break;
    case WT_MORE: fputs("the request is cut\n", stderr); return 2;
    default: fprintf(stderr, "the connection ends with 0x%llx\n", (unsigned long long)code); return 2;
  }
  if (frame.type != WT_FRAME_HEADERS) {
    fputs("no request\n", stderr);
    return 2;
  }
  switch (wt_request_read(stream + frame.offset, frame.length, texts, sizeof texts, &authority, &used,
                          &code)) {
    case WT_OK: break;
    case WT_ERROR: fprintf(stderr, "refused with 0x%llx\n", (unsigned long long)code); return 2;
    default: fputs("no memory\n", stderr); return 1;
  }
  fprintf(stderr, "host %.*s, path %.*s\n", (int)authority, (const char *)texts,
          (int)(used - authority), (const char *)texts + authority);
  /* /chat exists, and nothing else */
  size = used - authority;
  return respond(size == strlen(chat) && memcmp(texts + authority, chat, size) == 0 ? 200 : 404);
}
