/* The calls that an implementation gives to be measured. Each answers a count or a length, or -1 at a refusal. A call
   that an implementation lacks is left out of its library, and the driver passes it over. */
#ifndef BENCH_ABI_H
#define BENCH_ABI_H
#include <stddef.h>
#include <stdint.h>

typedef struct {
  const uint8_t *name;
  size_t name_len;
  const uint8_t *value;
  size_t value_len;
} bench_pair;

/* The frames of a remote bidirectional stream, read whole until none is left. */
int64_t bench_list(const uint8_t *bytes, size_t len);
/* The same by polled reading from a source that is always ready: poll by poll, and driven into a vector. */
int64_t bench_poll(const uint8_t *bytes, size_t len);
int64_t bench_drive(const uint8_t *bytes, size_t len);
/* A request on a stream of its own, of which BENCH_PIECE bytes come at a time and the end with the last ones: the bytes
   of its content, by all that a server's connection does with the frames of the stream, and by its frames alone. */
int64_t bench_connection(const uint8_t *bytes, size_t len);
int64_t bench_message(const uint8_t *bytes, size_t len);
/* The first of them where all bytes come at once. */
int64_t bench_connection_whole(const uint8_t *bytes, size_t len);
/* The same request in pieces, whose fields are decoded and checked, and its content counted against them: the size of
   its field list (RFC 9114, section 4.2.2), and the bytes of its content. */
int64_t bench_content(const uint8_t *bytes, size_t len);
/* Messages to their verdicts, each whole on a stream of its own: what make_messages.py writes. The sizes of all field
   lists, and the bytes of the content, but for sessions, which the server accepts. */
int64_t bench_requests(const uint8_t *bytes, size_t len);
int64_t bench_responses(const uint8_t *bytes, size_t len);
int64_t bench_sessions(const uint8_t *bytes, size_t len);
/* The same request on many streams, all of which have all but the last byte before the first of them ends: what
   make_frames.py writes. */
int64_t bench_streams(const uint8_t *bytes, size_t len);
enum { BENCH_PIECE = 1200 };
/* The decoded bytes, and the coded bytes, that were put into out. */
int64_t bench_huffman_decode(const uint8_t *text, size_t len, uint8_t *out, size_t room);
int64_t bench_huffman_encode(const uint8_t *text, size_t len, uint8_t *out, size_t room);
/* The pairs of a section's map. */
int64_t bench_qpack_decode(const uint8_t *section, size_t len);
/* The size of a section's field list, read line by line with no map: the bytes of each name and each value, and 32 for
   each line (RFC 9114, section 4.2.2). */
int64_t bench_qpack_lines(const uint8_t *section, size_t len);
/* The bytes of a map's section that were put into out. */
int64_t bench_qpack_encode(const bench_pair *pairs, size_t count, uint8_t *out, size_t room);
/* The size of the field lists of sections with the dynamic table, which is made anew: what make_dynamic.c writes. */
int64_t bench_dynamic_lines(const uint8_t *bytes, size_t len);
/* The bytes that an encoder writes to its stream and in sections of so many fields each, with a table of 4096 bytes or of
   64 KiB, which is made anew; each section is acknowledged. */
int64_t bench_dynamic_encode_4k(const bench_pair *pairs, size_t count, uint8_t *out, size_t room);
int64_t bench_dynamic_encode_64k(const bench_pair *pairs, size_t count, uint8_t *out, size_t room);
enum { BENCH_FIELDS = 20 };
/* Whole connections of a server, over what make_whole.c writes: after their answer, how many streams are open, how often
   something is done then, and the capacity of the dynamic tables. The sizes of the field lists and the bytes of the content
   that came, and the bytes that QUIC took of the streams of requests, which the client has at once. The same piece of content
   on the streams in turn; a call that finds nothing to do; more requests; the same response on the streams; the same piece
   of content to one stream, with a copy and without one; streams that are opened and reset; and requests with their
   responses. */
int64_t bench_whole_content(const uint8_t *bytes, size_t len);
int64_t bench_whole_nothing(const uint8_t *bytes, size_t len);
int64_t bench_whole_requests(const uint8_t *bytes, size_t len);
int64_t bench_whole_responses(const uint8_t *bytes, size_t len);
int64_t bench_whole_send(const uint8_t *bytes, size_t len);
int64_t bench_whole_send_owned(const uint8_t *bytes, size_t len);
int64_t bench_whole_open(const uint8_t *bytes, size_t len);
int64_t bench_whole_exchange(const uint8_t *bytes, size_t len);
/* 1 where the payload was taken. */
int64_t bench_settings(const uint8_t *payload, size_t len);
#endif
