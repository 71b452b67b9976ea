/* What is sent, for tests. */
#ifndef SENDING_H
#define SENDING_H
#include "connection.h"

enum { HEADERS, TRAILERS, DATA, UNIDIRECTIONAL, BIDIRECTIONAL, DATAGRAM, DRAIN, CLOSE };

/* A call with its arguments. */
typedef struct sent {
  int call;
  const char *fields; /* lines "name value\n" */
  uint64_t number;    /* the length of DATA, or the code of a close */
  const char *reason;
} sent;

/* The fields of lines "name value\n", with their texts. */
typedef struct listed {
  wt_field fields[64];
  size_t count;
  uint8_t texts[4096];
  size_t used;
} listed;

listed list_of(const char *lines);

/* Makes the call. */
int make(const sent *x, wt_sending *s, uint8_t *out, size_t room, size_t *used, uint32_t *why);

/* The call writes these bytes: with exactly their room, and nothing with less. */
void writes(const sent *x, wt_sending *s, const void *bytes, size_t size);

/* The call is refused for this reason, and nothing changes. */
void refuses(const sent *x, wt_sending *s, uint32_t why);

/* The same for calls that write nothing. */
void refuses_end(wt_sending *s, uint32_t why);
void refuses_sent(wt_sending *s, uint64_t length, uint32_t why);

/* The sending side of a request or a response, of the stream with this ID. */
wt_sending request_on(const wt_connection *c, uint64_t id);
wt_sending response_on(const wt_connection *c, uint64_t id, uint32_t asked);
#endif
