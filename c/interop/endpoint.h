/* This library's end of a connection: it tells what it reads to a transcript, and writes streams. It counts what
   holds. */
#ifndef ENDPOINT_H
#define ENDPOINT_H
#include "messages.h"
#include <wtransport.h>

static unsigned long passed, failed;

static void count(int good, const char *row, const char *what) {
  if (good) {
    passed++;
  } else {
    failed++;
    printf("%s: %s\n", row, what);
  }
}

static void count_same(const transcript *read, const transcript *wanted, const char *row, const char *what) {
  count(is_same(read, wanted), row, what);
}

/* ---- What is read ---- */

static inline void tell_frame(uint64_t type, const uint8_t *payload, size_t size, transcript *t) {
  static wt_field fields[LINES];
  static wt_setting settings[LINES];
  static uint8_t texts[STREAM];
  size_t many, used;
  uint64_t code;
  if (type == WT_FRAME_DATA) {
    tell_content(t, payload, size);
  } else if (type == WT_FRAME_HEADERS) {
    int answer = wt_fields_read(payload, size, fields, LINES, texts, sizeof texts, &many, &used, &code);
    if (answer == WT_ERROR) tell_fault(t, code);
    for (size_t i = 0; answer == WT_OK && i < many; i++) {
      tell_line(t, texts + fields[i].name_offset, fields[i].name_length, texts + fields[i].value_offset,
                fields[i].value_length);
    }
    tell_section_end(t);
  } else if (type == WT_FRAME_SETTINGS) {
    int answer = wt_settings_read(payload, size, settings, LINES, &many, &code);
    if (answer == WT_ERROR) tell_fault(t, code);
    for (size_t i = 0; answer == WT_OK && i < many; i++) tell_setting(t, settings[i].id, settings[i].value);
  }
}

/* Tells the frames of a stream that comes in random pieces, and its end or its fault. */
static inline void read_frames(uint8_t kind, const uint8_t *bytes, size_t size, transcript *t) {
  size_t at = 0, held = 0, consumed;
  uint64_t code = 0;
  wt_reader reader;
  wt_frame frame;
  int answer = wt_reader_new(kind, &reader);
  while (answer >= 0) {
    answer = wt_read_frame(&reader, bytes + at, held, &consumed, &frame, &code);
    if (answer == WT_OK) tell_frame(frame.type, bytes + at + frame.offset, frame.length, t);
    if (answer < 0) break;
    at += consumed;
    held -= consumed;
    if (answer == WT_MORE) {
      size_t left = size - at - held;
      if (left == 0) {
        answer = wt_read_end(&reader, bytes + at, held, &code);
        if (answer == WT_OK) tell_end(t);
        break;
      }
      held += 1 + below(left < 700 ? left : 700);
    }
  }
  if (answer < 0) tell_fault(t, code);
}

/* ---- What is written ---- */

/* Appends what a call writes, given the room and what it used. */
#define APPEND(s, call)                                              \
  do {                                                               \
    uint8_t *out = (s)->bytes + (s)->size;                           \
    size_t room = sizeof(s)->bytes - (s)->size, used = 0;            \
    MUST((call) == WT_OK && used <= room);                           \
    (s)->size += used;                                               \
  } while (0)

/* Frames and streams whose types are reserved, which a receiver ignores (RFC 9114, sections 6.2.3 and 7.2.8). */
static uint64_t reserved(void) { return 0x21 + 0x1f * (uint64_t)below(1 << 20); }

static void write_reserved(stream *s) {
  uint8_t payload[64] = {0};
  if (below(2)) APPEND(s, wt_frame_write(reserved(), payload, below(sizeof payload), out, room, &used));
}

/* The fields of lines, and their texts. */
static size_t fields_of(const line *lines, wt_field *fields, stream *texts) {
  size_t many = 0;
  texts->size = 0;
  for (; lines[many].name != NULL; many++) {
    fields[many].name_offset = texts->size;
    fields[many].name_length = strlen(lines[many].name);
    append(texts, lines[many].name, fields[many].name_length);
    fields[many].value_offset = texts->size;
    fields[many].value_length = strlen(lines[many].value);
    append(texts, lines[many].value, fields[many].value_length);
  }
  return many;
}

static void write_headers(stream *s, const line *lines) {
  static stream texts, section;
  wt_field fields[LINES];
  size_t many = fields_of(lines, fields, &texts);
  section.size = 0;
  if (many == 0) return;
  APPEND(&section, wt_fields_write(fields, many, texts.bytes, texts.size, out, room, &used));
  APPEND(s, wt_frame_write(WT_FRAME_HEADERS, section.bytes, section.size, out, room, &used));
}

/* The request or the response of a session, made as such: its first lines are made from the URL or the status. */
static void write_session(stream *s, const message *m, const char *url) {
  static stream texts;
  wt_field fields[LINES];
  const line *others = m->lines;
  while (others->name != NULL && others->name[0] == ':') others++;
  size_t many = fields_of(others, fields, &texts);
  if (url != NULL) {
    APPEND(s, wt_request_write((const uint8_t *)url, strlen(url), fields, many, texts.bytes, texts.size, out,
                               room, &used));
  } else {
    uint32_t status = (uint32_t)atoi(value_of(m, ":status"));
    APPEND(s, wt_response_write(status, fields, many, texts.bytes, texts.size, out, room, &used));
  }
}

static void write_message(stream *s, const message *m, int is_session, const char *url) {
  size_t at = 0;
  s->size = 0;
  write_headers(s, m->info);
  if (is_session) {
    write_session(s, m, url);
  } else {
    write_headers(s, m->lines);
  }
  for (const size_t *size = m->data; *size > 0; size++) {
    write_reserved(s);
    APPEND(s, wt_frame_write_head(WT_FRAME_DATA, *size, out, room, &used));
    for (size_t end = at + *size; at < end; at++) {
      uint8_t byte = content_at(at);
      append(s, &byte, 1);
    }
  }
  write_headers(s, m->trailers);
  write_reserved(s);
}

static void write_header(stream *s, uint64_t type) {
  wt_stream_header header = {type, 0};
  s->size = 0;
  APPEND(s, wt_stream_header_write(&header, out, room, &used));
}

static inline void write_control(stream *s, const wt_setting *settings, size_t many) {
  static stream payload;
  payload.size = 0;
  APPEND(&payload, wt_settings_write(settings, many, out, room, &used));
  write_header(s, WT_STREAM_CONTROL);
  APPEND(s, wt_frame_write(WT_FRAME_SETTINGS, payload.bytes, payload.size, out, room, &used));
  write_reserved(s);
}
#endif
