/* The program wt_qpack, which is talked to through two pipes: a line of commands each way. */
#ifndef PEER_H
#define PEER_H
#include <stdint.h>
#include <stdio.h>
#include <stdlib.h>
#include <string.h>
#include <sys/types.h>
#include <sys/wait.h>
#include <unistd.h>

/* The bytes of a text, or of a stream that were not delivered yet. */
typedef struct {
  uint8_t *bytes;
  size_t size, room;
} buffer;

/* Ends the run: the test itself cannot go on. */
static inline void give_up(const char *why) {
  fprintf(stderr, "qpack: %s\n", why);
  printf("0 passed, 1 failed\n");
  exit(1);
}

static inline void append(buffer *to, const void *bytes, size_t size) {
  if (to->size + size + 1 > to->room) {
    to->room = 2 * (to->size + size + 1);
    to->bytes = realloc(to->bytes, to->room);
    if (!to->bytes) give_up("out of memory");
  }
  if (size > 0) memcpy(to->bytes + to->size, bytes, size);
  to->size += size;
  to->bytes[to->size] = 0;
}

static inline void append_text(buffer *to, const char *text) { append(to, text, strlen(text)); }

static inline void append_number(buffer *to, uint64_t number) {
  char text[24];
  snprintf(text, sizeof text, "%llu", (unsigned long long)number);
  append_text(to, text);
}

/* Appends bytes in hexadecimal, or `-` for none. */
static inline void append_digits(buffer *to, const uint8_t *bytes, size_t size) {
  static const char digits[] = "0123456789abcdef";
  if (size == 0) append_text(to, "-");
  for (size_t i = 0; i < size; i++) {
    char two[2] = {digits[bytes[i] >> 4], digits[bytes[i] & 15]};
    append(to, two, 2);
  }
}

/* Drops the first bytes. */
static inline void take(buffer *from, size_t size) {
  memmove(from->bytes, from->bytes + size, from->size - size);
  from->size -= size;
}

static inline void clear(buffer *b) { b->size = 0; }

static int to_program, from_program;
static pid_t program_id;

static inline void start_program(const char *path) {
  int in[2], out[2];
  if (pipe(in) || pipe(out)) give_up("no pipes");
  program_id = fork();
  if (program_id < 0) give_up("no process");
  if (program_id == 0) {
    dup2(in[0], 0);
    dup2(out[1], 1);
    close(in[0]), close(in[1]), close(out[0]), close(out[1]);
    execl(path, path, (char *)NULL);
    _exit(127);
  }
  close(in[0]);
  close(out[1]);
  to_program = in[1];
  from_program = out[0];
}

/* Ends the program. Returns whether it ended well. */
static inline int end_program(void) {
  int status;
  close(to_program);
  return waitpid(program_id, &status, 0) == program_id && WIFEXITED(status) && WEXITSTATUS(status) == 0;
}

/* Sends a line of a command. Returns the line of output, which is there until the next call. */
static inline char *ask(buffer *line) {
  static buffer output;
  append_text(line, "\n");
  for (size_t at = 0; at < line->size;) {
    ssize_t written = write(to_program, line->bytes + at, line->size - at);
    if (written <= 0) give_up("the program has ended");
    at += (size_t)written;
  }
  clear(line);
  clear(&output);
  while (output.size == 0 || output.bytes[output.size - 1] != '\n') {
    uint8_t some[65536];
    ssize_t got = read(from_program, some, sizeof some);
    if (got <= 0) give_up("the program has ended");
    append(&output, some, (size_t)got);
  }
  output.bytes[output.size - 1] = 0;
  return (char *)output.bytes;
}

/* Cuts off the first word of a text, and returns the rest. */
static inline char *rest_of(char *text) {
  char *space = strchr(text, ' ');
  if (!space) return text + strlen(text);
  *space = 0;
  return space + 1;
}

static inline int digit(char c) { return c >= 'a' ? c - 'a' + 10 : c - '0'; }

/* Appends the bytes of a hexadecimal word. */
static inline void append_bytes(buffer *to, const char *word) {
  if (strcmp(word, "-") == 0) return;
  for (; word[0] && word[1]; word += 2) {
    uint8_t byte = (uint8_t)(digit(word[0]) * 16 + digit(word[1]));
    append(to, &byte, 1);
  }
}
#endif
