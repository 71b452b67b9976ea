/* Requests and their responses: some rows, and random ones. */
#ifndef EXCHANGES_H
#define EXCHANGES_H
#include "messages.h"

static const exchange exchanges[] = {
    {"GET", NULL,
     {.lines = {{":method", "GET"}, {":scheme", "https"}, {":authority", "example.com"}, {":path", "/"}}},
     {.lines = {{":status", "200"}}}},
    {"POST with content", NULL,
     {.lines = {{":method", "POST"}, {":scheme", "https"}, {":authority", "example.com"}, {":path", "/a?b=c"},
                {"content-type", "text/plain"}, {"content-length", "11"}},
      .data = {11}},
     {.lines = {{":status", "201"}, {"location", "/a/1"}, {"server", "h3"}}, .data = {5}}},
    {"DATA frames from 1 to 4096 bytes", NULL,
     {.lines = {{":method", "PUT"}, {":scheme", "https"}, {":authority", "example.com"}, {":path", "/large"}},
      .data = {1, 63, 64, 4095, 4096, 2}},
     {.lines = {{":status", "200"}}, .data = {4096, 1, 4096}}},
    {"repeated names and long values", NULL,
     {.lines = {{":method", "GET"}, {":scheme", "https"}, {":authority", "example.com:8443"}, {":path", "/"},
                {"cookie", "a=1"}, {"cookie", "b=2"}, {"x-empty", ""},
                {"user-agent", "one and two and three and four and five and six and seven and eight and nine and "
                               "ten and eleven and twelve and thirteen and fourteen and fifteen and sixteen"},
                {"accept", "*/*"}, {"cookie", "a=1"}}},
     {.lines = {{":status", "404"}, {"x-frame-options", "deny"}, {"set-cookie", "a=1"}, {"set-cookie", "b=2"},
                {"cache-control", "no-cache"}, {"x-symbols", "~!@#$%^&*()_+{}|:\"<>?[]\\;',./`"}}}},
    {"informational response", NULL,
     {.lines = {{":method", "GET"}, {":scheme", "https"}, {":authority", "example.com"}, {":path", "/"}}},
     {.info = {{":status", "103"}, {"link", "</style.css>; rel=preload"}},
      .lines = {{":status", "200"}},
      .data = {3}}},
    {"trailers", NULL,
     {.lines = {{":method", "POST"}, {":scheme", "https"}, {":authority", "example.com"}, {":path", "/"}},
      .data = {4, 4},
      .trailers = {{"x-sum", "1"}}},
     {.lines = {{":status", "200"}}, .data = {9}, .trailers = {{"x-sum", "2"}, {"x-time", "3"}}}},
    {"session", "https://example.com:4433/chat?room=1",
     {.lines = {{":method", "CONNECT"}, {":scheme", "https"}, {":protocol", "webtransport"},
                {":authority", "example.com:4433"}, {":path", "/chat?room=1"}, {"origin", "https://example.com"}},
      .data = {7}},
     {.lines = {{":status", "200"}, {"server", "h3"}}, .data = {9, 300}}},
    {"session refused", "https://example.com/none",
     {.lines = {{":method", "CONNECT"}, {":scheme", "https"}, {":protocol", "webtransport"},
                {":authority", "example.com"}, {":path", "/none"}}},
     {.lines = {{":status", "404"}}}},
};

enum { EXCHANGES = sizeof exchanges / sizeof exchanges[0] };

/* ---- Random exchanges ---- */

static char *random_text(int is_name) {
  static char texts[1 << 17];
  static size_t next;
  static const char letters[] = "abcdefghijklmnopqrstuvwxyz0123456789-";
  size_t size = is_name ? 1 + below(20) : below(150);
  if (next + size + 3 > sizeof texts) next = 0;
  char *text = texts + next;
  next += size + 3;
  text[0] = 'x';
  text[1] = '-';
  for (size_t i = 2; i < size + 2; i++) {
    text[i] = is_name ? letters[below(sizeof letters - 1)] : (char)(0x21 + below(0x5e));
  }
  text[size + 2] = 0;
  return text;
}

static void add_random(message *m, size_t from) {
  size_t many = below(12), frames = below(FRAMES - 2);
  for (size_t i = from; i < from + many; i++) m->lines[i] = (line){random_text(1), random_text(0)};
  for (size_t i = 0; i < frames; i++) m->data[i] = 1 + below(below(4) ? 64 : 4096);
}

static inline exchange random_exchange(void) {
  exchange e = {"random", NULL,
                {.lines = {{":method", "POST"}, {":scheme", "https"}, {":authority", "example.com"}, {":path", "/"}}},
                {.lines = {{":status", "200"}}}};
  add_random(&e.request, 4);
  add_random(&e.response, 1);
  return e;
}
#endif
