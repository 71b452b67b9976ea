/* Each call once with good input, with each refusal, with outputs one too short, and with no bytes
   at a null pointer. Expected values are those of the RFCs that a test names. */
#include "wtransport.h"
#include "check.h"

unsigned long passed, failed;

uint8_t *exactly(const void *bytes, size_t size) {
  uint8_t *copy = (uint8_t *)malloc(size > 0 ? size : 1);
  if (copy == NULL) abort();
  if (size > 0) memcpy(copy, bytes, size);
  return copy;
}

int main(void) {
  test_version();
  test_numbers();
  test_stream_headers();
  test_datagrams();
  test_frames();
  test_codes();
  test_settings();
  test_fields();
  test_reader();
  test_sessions();
  test_request_faults();
  test_capsules();
  test_closes();
  test_connection_rows();
  test_connection_calls();
  test_connection_words();
  test_connection_pushes();
  test_connection_peer();
  test_connection_table();
  test_sending_messages();
  test_sending_sessions();
  test_sending_words();
  test_sending_tables();
  printf("%lu passed, %lu failed\n", passed, failed);
  return failed > 0;
}
