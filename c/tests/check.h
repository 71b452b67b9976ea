/* Checks that count themselves. */
#ifndef CHECK_H
#define CHECK_H
#include <stdint.h>
#include <stdio.h>
#include <stdlib.h>
#include <string.h>

/* The value of an output before a call. */
#define UNCHANGED 99

extern unsigned long passed, failed;

#define CHECK(x)                                                  \
  do {                                                            \
    if (x) {                                                      \
      passed++;                                                   \
    } else {                                                      \
      failed++;                                                   \
      printf("%s:%d: %s\n", __FILE__, __LINE__, #x);              \
    }                                                             \
  } while (0)

/* The bytes in memory of exactly their size, so that valgrind sees a read past their end. */
uint8_t *exactly(const void *bytes, size_t size);

void test_version(void);
void test_numbers(void);
void test_stream_headers(void);
void test_datagrams(void);
void test_frames(void);
void test_codes(void);
void test_settings(void);
void test_fields(void);
void test_reader(void);
void test_sessions(void);
void test_request_faults(void);
void test_capsules(void);
void test_closes(void);
void test_connection_rows(void);
void test_connection_calls(void);
void test_connection_words(void);
void test_connection_pushes(void);
void test_connection_peer(void);
void test_connection_table(void);
void test_sending_messages(void);
void test_sending_sessions(void);
void test_sending_words(void);
void test_sending_tables(void);
#endif
