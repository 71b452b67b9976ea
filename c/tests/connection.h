/* A connection and its streams, for tests. */
#ifndef CONNECTION_H
#define CONNECTION_H
#include "wtransport.h"
#include "check.h"

/* The control stream of Chromium 156, with WebTransport (RFC 9114, section 7.2.4). */
extern const uint8_t chromium_control[63];

/* CONNECT https://a/ for a session, in a HEADERS frame. */
extern const uint8_t session_request[34];

/* Begins a connection of this side whose SETTINGS enable WebTransport or not. */
wt_connection connection_of(uint8_t side, uint8_t webtransport);

/* A stream that comes piece by piece. */
typedef struct reading {
  wt_stream stream;
  uint8_t held[4096];
  uint8_t out[4096];
  wt_field fields[64];
  wt_event event;
} reading;

/* Calls wt_receive with these bytes in memory of exactly their size, and checks what every call
   keeps. */
int receive(wt_connection *c, reading *r, const uint8_t *bytes, size_t size, int fin);

/* Reads a control stream whole, as the peer's stream with this ID. */
void configure(wt_connection *c, uint64_t id, const uint8_t *bytes, size_t size);

/* Reads the request of a session on a new stream with this ID, which then waits for an answer. */
reading *request_session(wt_connection *c, uint64_t id);
#endif
