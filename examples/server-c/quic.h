/* QUIC on 127.0.0.1 for c/examples/h3.h, over ngtcp2 and GnuTLS: the connections of a server or a
   client, in one thread. There is one UDP socket, and quic_run ends by itself.

   A program defines on_event and on_gone, and calls quic_begin and quic_run. It may call everything
   else from these two and from the function that it gives to quic_run, and after each of them a
   stream that ended may be gone. */
#ifndef QUIC_H
#define QUIC_H
#define H3_TABLE 4096
#include "h3.h"
#include <gnutls/gnutls.h>
#include <netinet/in.h>
#include <ngtcp2/ngtcp2_crypto.h>

enum {
  PACKET = 1452, /* the longest packet that is sent */
  ID_SIZE = 16, /* of connection IDs: the connection's tag, and random bytes */
  TAG_SIZE = 8
};

typedef struct quic_chunk quic_chunk;
typedef struct quic_queue { /* of bytes */
  quic_chunk *first, *last;
  uint64_t end; /* how many there were */
} quic_queue;

typedef struct quic_stream {
  h3_stream h3; /* whose `user` is given to free at last */
  bool kept; /* as long as the connection, as a client's request for a session has to be */
  bool fin, fin_sent; /* of the own half, and if that is reset or does not exist */
  bool stopped; /* by the peer, as ngtcp2 found out when it was to send */
  bool closed;
  uint64_t sent; /* so many bytes */
  quic_queue out; /* what was not acknowledged: ngtcp2 sends lost bytes again from there */
  quic_chunk *unsent; /* the first chunk of it with bytes to send, or null */
} quic_stream;

typedef struct quic_connection {
  h3_connection h3;
  bool late_settings; /* the program sends them, and not quic_run when the handshake is complete */
  bool closing; /* quic_close was called, or it is over */
  struct quic_connection *next;
  ngtcp2_conn *conn;
  ngtcp2_crypto_conn_ref ref;
  gnutls_session_t tls;
  struct sockaddr_in peer;
  ngtcp2_path path;
  uint8_t tag[TAG_SIZE];
  quic_queue datagrams;
  ngtcp2_connection_close_error error;
  uint64_t end; /* when it is gone, after it is over; 0: it is not over */
  uint8_t last[PACKET]; /* CONNECTION_CLOSE */
  ngtcp2_ssize last_size; /* 0 or below: there is none */
} quic_connection;

/* Opens the socket, at a port of 127.0.0.1 (0: any), and returns its port. A server has a
   certificate and its key, in PEM files; a client has no key, and trusts this certificate alone. It
   ends the program if that fails. */
int quic_begin(int port, const char *certificate, const char *key);

/* Runs until stop returns true, or this many seconds are over. stop is called every tenth of a
   second, and after packets. Then it closes the connections with H3_NO_ERROR. */
void quic_run(double seconds, bool (*stop)(void));

/* The time in nanoseconds, which only grows. */
uint64_t quic_now(void);

/* A client's new connection to a port of 127.0.0.1. */
quic_connection *quic_connect(int port);

/* Sends the SETTINGS of a connection with late_settings. */
void quic_send_settings(quic_connection *c);

/* Whether QUIC closed both halves of a stream, and all of it was read. */
bool quic_is_closed(const quic_stream *s);

/* Lets the peer send as many bytes more when what was sent on the stream is acknowledged. */
void quic_consume_later(h3_stream *s, size_t length);

/* The program's: a connection is gone, with its error code. */
void on_gone(quic_connection *c, uint64_t code);

/* ---- What quic.c and streams.c have in common ---- */

extern const ngtcp2_callbacks quic_callbacks;
void *quic_allocate(size_t size);
void quic_make_id(const quic_connection *c, ngtcp2_cid *id);
void quic_sweep(quic_connection *c);
void quic_free_streams(quic_connection *c);
int quic_write_packets(quic_connection *c);
void quic_send_packet(const quic_connection *c, const uint8_t *bytes, ngtcp2_ssize size);
#endif
