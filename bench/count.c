/* count LIBRARY.so SYMBOL INPUT CALLS : makes one call of abi.h, over the bytes or the pairs of a file, this many times
   after two others, in a function of its own, `counted`, so that valgrind can count the instructions of that function
   alone. */
#include "inputs.h"
#include <dlfcn.h>

typedef int64_t (*reads)(const uint8_t *, size_t);
typedef int64_t (*writes_pairs)(const bench_pair *, size_t, uint8_t *, size_t);

static volatile int64_t sink;

/* A call, over bytes or over pairs. */
typedef struct {
  void *f;
  const uint8_t *bytes;
  const bench_pair *pairs; /* or none */
  size_t len;              /* of the bytes, or the count of pairs */
} call;

static int64_t make(const call *c) {
  static uint8_t out[8192];
  if (c->pairs) return ((writes_pairs)c->f)(c->pairs, c->len, out, sizeof out);
  return ((reads)c->f)(c->bytes, c->len);
}

__attribute__((noinline)) static void counted(const call *c, size_t calls) {
  for (size_t i = 0; i < calls; ++i) sink += make(c);
}

int main(int argc, char **argv) {
  if (argc != 5) return 1;
  static bench_pair pairs[PAIRS];
  void *library = dlopen(argv[1], RTLD_NOW | RTLD_LOCAL);
  call c = {.f = library ? dlsym(library, argv[2]) : NULL};
  if (!c.f) return 2; /* the library lacks the call */
  c.bytes = load(argv[3], &c.len);
  if (strstr(argv[2], "_encode")) {
    c.pairs = pairs;
    c.len = pairs_of(c.bytes, pairs);
  }
  /* The first call may take what later ones keep. */
  if (make(&c) < 0 || make(&c) < 0) return 1;
  counted(&c, strtoul(argv[4], NULL, 10));
  return 0;
}
