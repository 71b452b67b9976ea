/* The inputs of a benchmark, from files. */
#ifndef BENCH_INPUTS_H
#define BENCH_INPUTS_H
#include "abi.h"
#include <stdio.h>
#include <stdlib.h>
#include <string.h>

/* The bytes of a file; where it cannot be read, the run ends with status 1. */
static inline uint8_t *load(const char *path, size_t *len) {
  FILE *file = fopen(path, "rb");
  if (!file) {
    perror(path);
    exit(1);
  }
  fseek(file, 0, SEEK_END);
  *len = (size_t)ftell(file);
  rewind(file);
  uint8_t *bytes = malloc(*len + 1);
  if (!bytes || fread(bytes, 1, *len, file) != *len) exit(1);
  fclose(file);
  return bytes;
}

enum { PAIRS = 1280 };

/* A number of four bytes, lowest first. */
static inline uint32_t number_at(const uint8_t *at) {
  uint32_t number;
  memcpy(&number, at, 4);
  return number;
}

/* A file of pairs: how many, then for each two lengths and its name and value; numbers of four bytes, lowest first. */
static inline size_t pairs_of(const uint8_t *at, bench_pair *pairs) {
  uint32_t count, name, value;
  memcpy(&count, at, 4);
  at += 4;
  if (count > PAIRS) exit(1);
  for (uint32_t i = 0; i < count; ++i) {
    memcpy(&name, at, 4);
    memcpy(&value, at + 4, 4);
    pairs[i] = (bench_pair){at + 8, name, at + 8 + name, value};
    at += 8 + name + value;
  }
  return count;
}
#endif
