/* driver INPUTS NAME=LIBRARY.so .. : times each call of abi.h that a library has, over the same inputs, the libraries
   in turn in each round. Prints the least time of each, how many times as long each takes as those before it, and at the
   end how busy the machine was. A wrong answer ends the run with status 1. */
#define _GNU_SOURCE
#include "inputs.h"
#include <dlfcn.h>
#include <time.h>
#include <unistd.h>

enum { ROUNDS = 100, LIBRARIES = 4, PIECES = 1024, MESSAGES = 64 };
static const double ROUND = 0.005; /* seconds of the processor */

typedef int64_t (*reads)(const uint8_t *, size_t);
typedef int64_t (*writes)(const uint8_t *, size_t, uint8_t *, size_t);
typedef int64_t (*writes_pairs)(const bench_pair *, size_t, uint8_t *, size_t);

/* What one call is given, and its answer, or -1 where none is known; so are the bytes that it puts out. */
typedef struct {
  const uint8_t *bytes;
  size_t len; /* of the bytes, or the count of pairs */
  int64_t wanted;
  const uint8_t *wanted_out;
} input;

/* One call over inputs of like length, each in turn: over one alone the processor would learn its branches. */
typedef struct {
  const char *label, *symbol;
  const bench_pair *pairs;
  int has_out;
  const input *inputs;
  const input *less; /* or none: an input whose time is subtracted from that of the only one */
  size_t count;
  size_t bytes;     /* of an input, that the rate is counted in, or of what else */
  const char *unit; /* what else, as a frame */
} task;

static uint8_t out[1 << 21];
static volatile int64_t sink;

/* The bytes of a file in the folder of the inputs. */
static uint8_t *load_input(const char *folder, const char *name, size_t *len) {
  char path[4096];
  snprintf(path, sizeof path, "%s/%s", folder, name);
  return load(path, len);
}

static double now(void) {
  struct timespec t;
  clock_gettime(CLOCK_THREAD_CPUTIME_ID, &t);
  return (double)t.tv_sec + (double)t.tv_nsec * 1e-9;
}

static int64_t call(const task *t, const input *in, void *f) {
  if (t->pairs) return ((writes_pairs)f)(t->pairs, in->len, out, sizeof out);
  if (t->has_out) return ((writes)f)(in->bytes, in->len, out, sizeof out);
  return ((reads)f)(in->bytes, in->len);
}

static double seconds_of(const task *t, const input *inputs, void *f, size_t turns) {
  double start = now();
  for (size_t turn = 0; turn < turns; ++turn)
    for (size_t i = 0; i < t->count; ++i) sink += call(t, inputs + i, f);
  return now() - start;
}

static double seconds(const task *t, void *f, size_t turns) { return seconds_of(t, t->inputs, f, turns); }

/* Whether a library answers each input as it must; it may also lack the call, or take no such input. */
static int answers(const task *t, void *f) {
  for (size_t i = 0; i < t->count + !!t->less; ++i) {
    const input *in = i < t->count ? t->inputs + i : t->less;
    int64_t got = call(t, in, f);
    if (got < 0) return 0;
    if ((in->wanted >= 0 && got != in->wanted) || (in->wanted_out && memcmp(out, in->wanted_out, (size_t)got))) {
      printf("%s: a wrong answer, %ld\n", t->label, (long)got);
      exit(1);
    }
  }
  return 1;
}

/* Runs one task on each library that has the call, and prints a line; nothing where none has it. */
static void measure(const task *t, void **libraries, int count) {
  void *calls[LIBRARIES];
  size_t turns[LIBRARIES];
  double least[LIBRARIES], less[LIBRARIES];
  int have = 0;
  for (int i = 0; i < count; ++i) {
    calls[i] = dlsym(libraries[i], t->symbol);
    if (calls[i] && !answers(t, calls[i])) calls[i] = NULL;
    if (!calls[i]) continue;
    have = 1;
    turns[i] = 1;
    for (double d; (d = seconds(t, calls[i], turns[i])) < ROUND;)
      turns[i] = d < ROUND / 20 ? turns[i] * 8 : (size_t)((double)turns[i] * ROUND / d) + 1;
    least[i] = 1e9;
    less[i] = t->less ? 1e9 : 0;
  }
  if (!have) return;
  for (int r = 0; r < ROUNDS; ++r)
    for (int i = 0; i < count; ++i) {
      if (!calls[i]) continue;
      double d = seconds(t, calls[i], turns[i]) / (double)turns[i] / (double)t->count;
      if (d < least[i]) least[i] = d;
      if (!t->less) continue;
      d = seconds_of(t, t->less, calls[i], turns[i]) / (double)turns[i];
      if (d < less[i]) less[i] = d;
    }
  for (int i = 0; i < count; ++i)
    if (calls[i]) least[i] -= less[i];
  printf("%-28s", t->label);
  for (int i = 0; i < count; ++i) {
    double each = least[i] * 1e9 / (double)t->bytes;
    if (calls[i] && t->unit)
      printf(" %11.1f ns %9.1f ns/%-8s   ", least[i] * 1e9, each, t->unit);
    else if (calls[i])
      printf(" %11.1f ns %7.2f ns/byte %6.0f MB/s", least[i] * 1e9, each, 1e3 / each);
    else
      printf(" %11s    %7s         %6s     ", "-", "-", "-");
  }
  for (int i = 0; i < count; ++i)
    for (int k = i + 1; k < count; ++k) {
      if (calls[i] && calls[k])
        printf("  %13.2f x", least[k] / least[i]);
      else
        printf("  %13s  ", "");
    }
  printf("\n");
  fflush(stdout);
}

static void frames(const char *folder, void **libraries, int count) {
  static const char *const symbols[] = {"bench_list", "bench_poll", "bench_drive"};
  static const char *const files[][2] = {{"frames-1MiB.bin", "payloads 0 to 40"}, {"frames-tiny-1MiB.bin", "payloads 0 to 3"}};
  for (int f = 0; f < 2; ++f)
    for (int s = 0; s < 3; ++s) {
      char label[64];
      snprintf(label, sizeof label, "%s, %s", symbols[s] + 6, files[f][1]);
      input in = {.wanted = -1};
      in.bytes = load_input(folder, files[f][0], &in.len);
      task t = {.label = label, .symbol = symbols[s], .inputs = &in, .count = 1, .bytes = in.len};
      measure(&t, libraries, count);
    }
}

/* A call over one file: what it answers, and of what there are how many. */
static void measure_file(const char *folder, const char *file, const char *label, const char *symbol, int64_t wanted,
                         size_t units, const char *unit, void **libraries, int count) {
  input in = {.wanted = wanted};
  in.bytes = load_input(folder, file, &in.len);
  if (wanted < 0) in.wanted = number_at(in.bytes);
  task t = {.label = label, .symbol = symbol, .inputs = &in, .count = 1, .bytes = units ? units : in.len, .unit = unit};
  measure(&t, libraries, count);
  free((void *)in.bytes);
}

enum { POST_FIELDS = 168 }; /* the size of the fields of make_frames.py */

/* A request whose content is in frames of one length: of 1 MiB in pieces, and in 1,024 frames at once. */
static void requests(const char *folder, void **libraries, int count) {
  static const char *const files[][2] = {{"request-16x65536.bin", "DATA of 16 bytes"},
                                         {"request-1024x1024.bin", "DATA of 1 KiB"},
                                         {"request-1048576x1.bin", "DATA of 1 MiB"}};
  static const char *const symbols[] = {"bench_connection", "bench_message", "bench_content"};
  static const struct { const char *file, *name; int64_t size; } whole[] = {
      {"request-16x1024.bin", "16 bytes", 16}, {"request-1024x1024.bin", "1 KiB", 1024}, {"request-16384x1024.bin", "16 KiB", 16384}};
  char label[64];
  for (int s = 0; s < 3; ++s)
    for (int f = 0; f < 3; ++f) {
      snprintf(label, sizeof label, "%s, %s", symbols[s] + 6, files[f][1]);
      measure_file(folder, files[f][0], label, symbols[s], (1 << 20) + (s == 2 ? POST_FIELDS : 0), 0, NULL, libraries, count);
    }
  for (int f = 0; f < 3; ++f) {
    snprintf(label, sizeof label, "whole frames, DATA of %s", whole[f].name);
    measure_file(folder, whole[f].file, label, "bench_connection_whole", 1024 * whole[f].size, 1024, "frame", libraries, count);
  }
}

/* Recorded messages, and the same request on many streams. */
static void messages(const char *folder, void **libraries, int count) {
  static const char *const sets[][3] = {{"chromium.bin", "bench_requests", "requests of Chromium"},
                                        {"requests.bin", "bench_requests", "requests of four stacks"},
                                        {"responses.bin", "bench_responses", "responses of three stacks"},
                                        {"sessions.bin", "bench_sessions", "sessions of Chromium"}};
  static const struct { const char *file, *label; size_t streams; } open[] = {{"streams-10.bin", "10 open streams", 10},
                                                                              {"streams-1000.bin", "1,000 open streams", 1000},
                                                                              {"streams-10000.bin", "10,000 open streams", 10000}};
  for (int s = 0; s < 4; ++s) measure_file(folder, sets[s][0], sets[s][2], sets[s][1], -1, MESSAGES, "message", libraries, count);
  for (int s = 0; s < 3; ++s)
    measure_file(folder, open[s].file, open[s].label, "bench_streams", -1, open[s].streams, "stream", libraries, count);
}

/* Whole connections, over what make_whole.c writes: what the second input of a row has more than the first. */
static void connections(const char *folder, void **libraries, int count) {
  static const struct { const char *label, *symbol, *file; size_t times; } rows[] = {
      {"a piece in, 10 streams", "bench_whole_content", "piece-10", 10000},
      {"a piece in, 10,000 streams", "bench_whole_content", "piece-10000", 100000},
      {"a frame in, 10 streams", "bench_whole_content", "frame-10", 10000},
      {"a frame in, 10,000 streams", "bench_whole_content", "frame-10000", 100000},
      {"a piece out, 10 streams", "bench_whole_send", "send-10", 10000},
      {"a piece out, 10,000 streams", "bench_whole_send", "send-10000", 100000},
      {"16 KiB out, not copied", "bench_whole_send_owned", "send-16384", 1000},
      {"open, close, 10 streams", "bench_whole_open", "open-10", 1000},
      {"open, close, 10,000 streams", "bench_whole_open", "open-10000", 10000},
      {"nothing to do", "bench_whole_nothing", "nothing", 1000},
      {"a request in", "bench_whole_requests", "requests", 1000},
      {"a response out", "bench_whole_responses", "responses", 1000},
      {"request and response", "bench_whole_exchange", "exchange", 1000},
      {"a request in, table", "bench_whole_requests", "requests-table", 1000},
      {"a response out, table", "bench_whole_responses", "responses-table", 1000},
      {"request and response, table", "bench_whole_exchange", "exchange-table", 1000}};
  for (size_t r = 0; r < sizeof rows / sizeof *rows; ++r) {
    input in[2];
    for (int i = 0; i < 2; ++i) {
      char name[64];
      snprintf(name, sizeof name, "whole-%s-%s.bin", rows[r].file, i ? "less" : "more");
      in[i] = (input){.bytes = load_input(folder, name, &in[i].len)};
      in[i].wanted = number_at(in[i].bytes);
    }
    task t = {.label = rows[r].label, .symbol = rows[r].symbol, .inputs = in, .less = in + 1, .count = 1,
              .bytes = rows[r].times, .unit = "turn"};
    measure(&t, libraries, count);
    for (int i = 0; i < 2; ++i) free((void *)in[i].bytes);
  }
}

/* Header text in pieces of one length, and their codes, which come from the first library that has one. */
static void pieces(const uint8_t *text, size_t len, size_t each, const char *name, writes encode, void **libraries, int count) {
  static input plain[PIECES], coded[PIECES];
  size_t many = len / each < PIECES ? len / each : PIECES, room = 4 * each + 64;
  uint8_t *strings = malloc(many * room);
  for (size_t i = 0; i < many; ++i) {
    const uint8_t *piece = text + i * (len / many);
    uint8_t *string = strings + i * room;
    int64_t string_len = encode(piece, each, string, room);
    plain[i] = (input){piece, each, string_len, string};
    coded[i] = (input){string, (size_t)string_len, (int64_t)each, piece};
  }
  char label[64];
  task t = {.label = label, .symbol = "bench_huffman_decode", .has_out = 1, .inputs = coded, .count = many, .bytes = each};
  snprintf(label, sizeof label, "huffman decode, %s", name);
  measure(&t, libraries, count);
  t.symbol = "bench_huffman_encode";
  t.inputs = plain;
  snprintf(label, sizeof label, "huffman encode, %s", name);
  measure(&t, libraries, count);
}

/* Header text of several lengths, from 64 KiB of it whose code, made by another encoder, is in a file. */
static void huffman(const char *folder, void **libraries, int count) {
  static const struct { size_t len; const char *name; } sizes[] = {{8, "8 bytes"}, {64, "64 bytes"}, {4096, "4 KiB"}, {65536, "64 KiB"}};
  size_t len, coded_len;
  uint8_t *text = load_input(folder, "header-text-64KiB.bin", &len), *coded = load_input(folder, "header-text-64KiB.huff", &coded_len);
  writes encode = NULL;
  for (int i = 0; i < count && !encode; ++i) encode = (writes)dlsym(libraries[i], "bench_huffman_encode");
  if (!encode) return;
  if (encode(text, len, out, sizeof out) != (int64_t)coded_len || memcmp(out, coded, coded_len)) {
    printf("the code of 64 KiB is not that of the file\n");
    exit(1);
  }
  for (size_t i = 0; i < sizeof sizes / sizeof *sizes; ++i) pieces(text, len, sizes[i].len, sizes[i].name, encode, libraries, count);
  uint8_t *whole = malloc(1 << 20);
  for (size_t i = 0; i < 1 << 20; ++i) whole[i] = text[i % len];
  pieces(whole, 1 << 20, 1 << 20, "1 MiB", encode, libraries, count);
}

/* The size of a field list (RFC 9114, section 4.2.2). */
static int64_t size_of_list(const bench_pair *pairs, size_t count) {
  size_t size = 0;
  for (size_t i = 0; i < count; ++i) size += 32 + pairs[i].name_len + pairs[i].value_len;
  return (int64_t)size;
}

/* Whether each library that decodes takes each library's section of these pairs, and all are as long. Returns how long. */
static size_t cross(const bench_pair *pairs, size_t fields, void **libraries, int count) {
  int64_t first = 0;
  for (int i = 0; i < count; ++i) {
    writes_pairs encode = (writes_pairs)dlsym(libraries[i], "bench_qpack_encode");
    int64_t len = encode ? encode(pairs, fields, out, sizeof out) : first;
    first = first ? first : len;
    if (len != first) {
      printf("library %d writes a section of %lld bytes, and another one of %lld\n", i, (long long)len, (long long)first);
      exit(1);
    }
    for (int k = 0; encode && k < count; ++k) {
      reads decode = (reads)dlsym(libraries[k], "bench_qpack_decode");
      if (decode && (len < 0 || decode(out, (size_t)len) != (int64_t)fields)) {
        printf("a section that library %d wrote has not %zu fields for library %d\n", i, fields, k);
        exit(1);
      }
    }
  }
  return (size_t)first;
}

static void sections(const char *folder, void **libraries, int count) {
  static const char *const sets[] = {"request", "20-fields"};
  static bench_pair pairs[PAIRS];
  for (int i = 0; i < 2; ++i) {
    char name[64], label[64];
    size_t len;
    snprintf(name, sizeof name, "pairs-%s.bin", sets[i]);
    size_t fields = pairs_of(load_input(folder, name, &len), pairs);
    size_t written = cross(pairs, fields, libraries, count);
    input section = {.wanted = (int64_t)fields}, map = {.len = fields, .wanted = -1};
    snprintf(name, sizeof name, "section-%s.bin", sets[i]);
    section.bytes = load_input(folder, name, &section.len);
    task decode = {.label = label, .symbol = "bench_qpack_decode", .inputs = &section, .count = 1, .bytes = section.len};
    snprintf(label, sizeof label, "qpack decode, %s", sets[i]);
    measure(&decode, libraries, count);
    input listed = {section.bytes, section.len, size_of_list(pairs, fields), NULL};
    task lines = {.label = label, .symbol = "bench_qpack_lines", .inputs = &listed, .count = 1, .bytes = section.len};
    snprintf(label, sizeof label, "qpack lines, %s", sets[i]);
    measure(&lines, libraries, count);
    task encode = {.label = label, .symbol = "bench_qpack_encode", .pairs = pairs, .inputs = &map, .count = 1, .bytes = written};
    snprintf(label, sizeof label, "qpack encode, %s", sets[i]);
    measure(&encode, libraries, count);
  }
}

/* The sections of a connection with the dynamic table, by two capacities. */
static void dynamic(const char *folder, void **libraries, int count) {
  static const char *const capacities[][3] = {{"4096", "4 KiB", "bench_dynamic_encode_4k"},
                                              {"65536", "64 KiB", "bench_dynamic_encode_64k"}};
  static bench_pair pairs[PAIRS];
  size_t len, fields = pairs_of(load_input(folder, "pairs-connection.bin", &len), pairs);
  for (int i = 0; i < 2; ++i) {
    char name[64], label[64];
    input all = {.len = fields, .wanted = -1}, sections = {.wanted = size_of_list(pairs, fields)};
    snprintf(name, sizeof name, "dynamic-%s.bin", capacities[i][0]);
    sections.bytes = load_input(folder, name, &sections.len);
    snprintf(label, sizeof label, "dynamic lines, %s", capacities[i][1]);
    task lines = {.label = label, .symbol = "bench_dynamic_lines", .inputs = &sections, .count = 1, .bytes = sections.len};
    measure(&lines, libraries, count);
    snprintf(label, sizeof label, "dynamic encode, %s", capacities[i][1]);
    task encode = {.label = label, .symbol = capacities[i][2], .pairs = pairs, .inputs = &all, .count = 1, .bytes = sections.len};
    measure(&encode, libraries, count);
  }
}

/* What all processors did since the machine started, in ticks: all of it, and idle and stolen, of which the last is what
   the machine's other guests took. */
typedef struct {
  double all, idle, stolen;
} work;

static work work_so_far(void) {
  double t[8] = {0};
  work w = {0, 0, 0};
  FILE *file = fopen("/proc/stat", "r");
  if (!file) return w;
  if (fscanf(file, "cpu %lf %lf %lf %lf %lf %lf %lf %lf", t, t + 1, t + 2, t + 3, t + 4, t + 5, t + 6, t + 7) == 8) {
    for (int i = 0; i < 8; ++i) w.all += t[i];
    w.idle = t[3] + t[4];
    w.stolen = t[7];
  }
  fclose(file);
  return w;
}

/* How busy the machine was: a driver alone on it leaves all processors but one idle. */
static void tell_work(work before, double own) {
  work after = work_so_far();
  double all = after.all - before.all, ticks = (double)sysconf(_SC_CLK_TCK), processors = (double)sysconf(_SC_NPROCESSORS_ONLN);
  if (all <= 0) {
    printf("\nHow busy the machine was is not known.\n");
    return;
  }
  double idle = after.idle - before.idle, stolen = after.stolen - before.stolen, other = all - idle - stolen - own * ticks;
  printf("\nOver the run of %.0f s, of the time of %.0f processors: idle %.1f %%, stolen by other guests %.1f %%, this program %.1f %%, "
         "other programs %.1f %%.\n", all / ticks / processors, processors, 100 * idle / all, 100 * stolen / all,
         100 * own * ticks / all, 100 * (other > 0 ? other : 0) / all);
}

static void settings(const char *folder, void **libraries, int count) {
  input in = {.wanted = 1};
  in.bytes = load_input(folder, "settings.bin", &in.len);
  task t = {.label = "settings decode", .symbol = "bench_settings", .inputs = &in, .count = 1, .bytes = in.len};
  measure(&t, libraries, count);
}

/* The title of a column of ratios: how many times as long the later library takes as the earlier. */
static const char *ratio_title(const char *later, const char *earlier) {
  static char title[64];
  snprintf(title, sizeof title, "%.*s : %.*s", (int)strcspn(later, "="), later, (int)strcspn(earlier, "="), earlier);
  return title;
}

int main(int argc, char **argv) {
  void *libraries[LIBRARIES];
  int count = argc - 2;
  if (count < 1 || count > LIBRARIES) {
    fprintf(stderr, "driver INPUTS NAME=LIBRARY.so ..\n");
    return 1;
  }
  printf("%-28s", "");
  for (int i = 0; i < count; ++i) {
    char *path = strchr(argv[i + 2], '=');
    if (!path) return 1;
    *path++ = 0;
    libraries[i] = dlopen(path, RTLD_NOW | RTLD_LOCAL);
    if (!libraries[i]) {
      fprintf(stderr, "%s\n", dlerror());
      return 1;
    }
    printf(" %-41s", argv[i + 2]);
  }
  for (int i = 0; i < count; ++i)
    for (int k = i + 1; k < count; ++k) printf("  %15s", ratio_title(argv[k + 2], argv[i + 2]));
  printf("\n");
  work before = work_so_far();
  frames(argv[1], libraries, count);
  requests(argv[1], libraries, count);
  messages(argv[1], libraries, count);
  connections(argv[1], libraries, count);
  huffman(argv[1], libraries, count);
  sections(argv[1], libraries, count);
  dynamic(argv[1], libraries, count);
  settings(argv[1], libraries, count);
  tell_work(before, now());
  return 0;
}
