/* QUIC on 127.0.0.1, over ngtcp2 and GnuTLS (quic.h). */
#define _GNU_SOURCE
#include "quic.h"
#include <gnutls/crypto.h>
#include <malloc.h>
#include <ngtcp2/ngtcp2_crypto_gnutls.h>
#include <poll.h>
#include <time.h>
#include <unistd.h>

enum { CONNECTIONS = 4096 }; /* at once */

static quic_connection *connections;
static size_t connection_count;
static int udp = -1;
static bool server;
static struct sockaddr_in here;
static gnutls_certificate_credentials_t credentials;

static void fail(const char *what) {
  fprintf(stderr, "quic: %s\n", what);
  exit(1);
}

void *quic_allocate(size_t size) {
  void *memory = calloc(1, size);
  if (memory == NULL) fail("out of memory");
  return memory;
}

uint64_t quic_now(void) {
  struct timespec t;
  clock_gettime(CLOCK_MONOTONIC, &t);
  return (uint64_t)t.tv_sec * NGTCP2_SECONDS + (uint64_t)t.tv_nsec;
}

/* ---- Connections ---- */

void quic_make_id(const quic_connection *c, ngtcp2_cid *id) {
  id->datalen = ID_SIZE;
  gnutls_rnd(GNUTLS_RND_RANDOM, id->data, ID_SIZE);
  memcpy(id->data, c->tag, TAG_SIZE);
}

static ngtcp2_conn *of_reference(ngtcp2_crypto_conn_ref *ref) {
  return ((quic_connection *)ref->user_data)->conn;
}

static void begin_tls(quic_connection *c) {
  static const gnutls_datum_t alpn = {(unsigned char *)"h3", 2};
  unsigned flags = server ? GNUTLS_SERVER | GNUTLS_NO_AUTO_SEND_TICKET : GNUTLS_CLIENT;
  if (gnutls_init(&c->tls, flags | GNUTLS_NO_END_OF_EARLY_DATA) != 0) fail("no TLS session");
  gnutls_priority_set_direct(c->tls, "NORMAL:-VERS-ALL:+VERS-TLS1.3:%DISABLE_TLS13_COMPAT_MODE",
                             NULL);
  gnutls_credentials_set(c->tls, GNUTLS_CRD_CERTIFICATE, credentials);
  gnutls_alpn_set_protocols(c->tls, &alpn, 1, GNUTLS_ALPN_MANDATORY);
  if (server) ngtcp2_crypto_gnutls_configure_server_session(c->tls);
  else {
    ngtcp2_crypto_gnutls_configure_client_session(c->tls);
    gnutls_server_name_set(c->tls, GNUTLS_NAME_DNS, "localhost", 9);
    gnutls_session_set_verify_cert(c->tls, "localhost", 0);
  }
  c->ref = (ngtcp2_crypto_conn_ref){of_reference, c};
  gnutls_session_set_ptr(c->tls, &c->ref);
  ngtcp2_conn_set_tls_native_handle(c->conn, c->tls);
}

static void set_limits(ngtcp2_settings *settings, ngtcp2_transport_params *params) {
  ngtcp2_settings_default(settings);
  settings->initial_ts = quic_now();
  settings->max_tx_udp_payload_size = PACKET;
  ngtcp2_transport_params_default(params);
  params->initial_max_stream_data_bidi_local = H3_WINDOW;
  params->initial_max_stream_data_bidi_remote = H3_WINDOW;
  params->initial_max_stream_data_uni = H3_WINDOW;
  params->initial_max_data = 16 * H3_WINDOW;
  params->initial_max_streams_bidi = params->initial_max_streams_uni = 200;
  params->max_idle_timeout = 30 * NGTCP2_SECONDS;
  params->max_datagram_frame_size = 65535;
}

/* A connection of a server, by the header of its first packet, or of a client, which has none. */
static quic_connection *add_connection(const struct sockaddr_in *peer, const ngtcp2_pkt_hd *first) {
  ngtcp2_settings settings;
  ngtcp2_transport_params params;
  ngtcp2_cid id, first_id;
  quic_connection *c = quic_allocate(sizeof *c);
  c->peer = *peer;
  c->path = (ngtcp2_path){
      {(struct sockaddr *)&here, sizeof here}, {(struct sockaddr *)&c->peer, sizeof c->peer}, NULL};
  gnutls_rnd(GNUTLS_RND_RANDOM, c->tag, TAG_SIZE);
  quic_make_id(c, &id);
  quic_make_id(c, &first_id);
  set_limits(&settings, &params);
  if (first) params.original_dcid = first->dcid;
  int error = first
                  ? ngtcp2_conn_server_new(&c->conn, &first->scid, &id, &c->path, first->version,
                                           &quic_callbacks, &settings, &params, NULL, c)
                  : ngtcp2_conn_client_new(&c->conn, &first_id, &id, &c->path, NGTCP2_PROTO_VER_V1,
                                           &quic_callbacks, &settings, &params, NULL, c);
  if (error != 0) fail("out of memory");
  begin_tls(c);
  h3_begin(&c->h3, server);
  connection_count++;
  c->next = connections;
  return connections = c;
}

static struct sockaddr_in address_of(int port) {
  return (struct sockaddr_in){.sin_family = AF_INET,
                              .sin_port = htons((uint16_t)port),
                              .sin_addr.s_addr = htonl(INADDR_LOOPBACK)};
}

quic_connection *quic_connect(int port) {
  struct sockaddr_in peer = address_of(port);
  return add_connection(&peer, NULL);
}

void quic_send_settings(quic_connection *c) {
  static const wt_setting settings[] = {{WT_SETTING_MAX_FIELD_SECTION_SIZE, H3_MAX_FIELDS},
                                        {WT_SETTING_ENABLE_CONNECT_PROTOCOL, 1},
                                        {WT_SETTING_H3_DATAGRAM, 1},
                                        {WT_SETTING_ENABLE_WEBTRANSPORT, 1},
                                        {WT_SETTING_WEBTRANSPORT_MAX_SESSIONS, 100},
                                        {WT_SETTING_QPACK_MAX_TABLE_CAPACITY, H3_TABLE},
                                        {WT_SETTING_QPACK_BLOCKED_STREAMS, H3_BLOCKED}};
  h3_send_settings(&c->h3, settings, 7);
}

void quic_close(h3_connection *h3, uint64_t code) {
  quic_connection *c = (quic_connection *)h3;
  if (!c->closing) ngtcp2_connection_close_error_set_application_error(&c->error, code, NULL, 0);
  c->closing = true;
}

/* (A packet that cannot be sent is lost, as packets may be.) */
void quic_send_packet(const quic_connection *c, const uint8_t *bytes, ngtcp2_ssize size) {
  if (size > 0)
    (void)!sendto(udp, bytes, (size_t)size, 0, (const struct sockaddr *)&c->peer, sizeof c->peer);
}

/* Ends a connection, after quic_close or for an error of ngtcp2, by CONNECTION_CLOSE if the peer
   did not. It stays for three probe timeouts, to send that again (RFC 9000, section 10.2). */
static void end_connection(quic_connection *c, int error) {
  ngtcp2_connection_close_error *e = &c->error;
  if (error == NGTCP2_ERR_DRAINING) ngtcp2_conn_get_connection_close_error(c->conn, e);
  else if (error == NGTCP2_ERR_CRYPTO)
    ngtcp2_connection_close_error_set_transport_error_tls_alert(
        e, ngtcp2_conn_get_tls_alert(c->conn), NULL, 0);
  else if (!c->closing) ngtcp2_connection_close_error_set_transport_error_liberr(e, error, NULL, 0);
  if (error != NGTCP2_ERR_DROP_CONN)
    c->last_size =
        ngtcp2_conn_write_connection_close(c->conn, NULL, NULL, c->last, PACKET, e, quic_now());
  quic_send_packet(c, c->last, c->last_size);
  c->end = quic_now() + 3 * ngtcp2_conn_get_pto(c->conn);
  c->closing = true;
}

/* Frees the first connection of a list. */
static void free_first(quic_connection **list) {
  quic_connection *c = *list;
  on_gone(c, c->error.error_code);
  *list = c->next;
  quic_free_streams(c);
  ngtcp2_conn_del(c->conn);
  gnutls_deinit(c->tls);
  free(c);
  if (--connection_count == 0) malloc_trim(0); /* all memory that is free goes back */
}

/* ---- Packets ---- */

/* The connection that a packet is for: its IDs begin with its tag, but for that which the first
   packets of a client have. */
static quic_connection *find(const uint8_t *id, size_t size) {
  quic_connection *c = connections;
  for (; c; c = c->next) {
    const ngtcp2_cid *first = ngtcp2_conn_get_client_initial_dcid(c->conn);
    if (size == ID_SIZE && memcmp(c->tag, id, TAG_SIZE) == 0) break;
    if (size == first->datalen && memcmp(first->data, id, size) == 0) break;
  }
  return c;
}

static void receive(const struct sockaddr_in *peer, const uint8_t *bytes, size_t length) {
  ngtcp2_version_cid v;
  ngtcp2_pkt_hd first;
  if (ngtcp2_pkt_decode_version_cid(&v, bytes, length, ID_SIZE) != 0) return;
  quic_connection *c = find(v.dcid, v.dcidlen);
  if (c == NULL && server && connection_count < CONNECTIONS &&
      ngtcp2_accept(&first, bytes, length) == 0)
    c = add_connection(peer, &first);
  if (c && c->end) quic_send_packet(c, c->last, c->last_size);
  else if (c) {
    int error = ngtcp2_conn_read_pkt(c->conn, &c->path, NULL, bytes, length, quic_now());
    if (error != 0) end_connection(c, error);
  }
}

/* ---- The loop ---- */

int quic_begin(int port, const char *certificate, const char *key) {
  const gnutls_x509_crt_fmt_t pem = GNUTLS_X509_FMT_PEM;
  const int buffered = 4 << 20; /* bytes of packets */
  socklen_t length = sizeof here;
  server = key != NULL;
  here = address_of(port);
  gnutls_certificate_allocate_credentials(&credentials);
  if ((server ? gnutls_certificate_set_x509_key_file(credentials, certificate, key, pem)
              : gnutls_certificate_set_x509_trust_file(credentials, certificate, pem)) < 0)
    fail("the certificate cannot be read");
  udp = socket(AF_INET, SOCK_DGRAM | SOCK_NONBLOCK | SOCK_CLOEXEC, 0);
  setsockopt(udp, SOL_SOCKET, SO_RCVBUF, &buffered, sizeof buffered);
  if (bind(udp, (struct sockaddr *)&here, length) != 0 ||
      getsockname(udp, (struct sockaddr *)&here, &length) != 0)
    fail("the port is taken");
  return ntohs(here.sin_port);
}

/* Waits until packets come, or a timer of a connection ends, or a tenth of a second. */
static void wait_for_packets(void) {
  uint64_t now = quic_now(), until = now + NGTCP2_SECONDS / 10;
  for (quic_connection *c = connections; c; c = c->next) {
    uint64_t expiry = c->end ? c->end : ngtcp2_conn_get_expiry(c->conn);
    if (expiry < until) until = expiry;
  }
  struct timespec t = {0, until > now ? (long)(until - now) : 0};
  ppoll(&(struct pollfd){udp, POLLIN, 0}, 1, &t, NULL);
}

static void receive_packets(void) {
  uint8_t packet[2048];
  struct sockaddr_in peer;
  socklen_t length = sizeof peer;
  for (int i = 0; i < 64; i++) {
    ssize_t n = recvfrom(udp, packet, sizeof packet, 0, (struct sockaddr *)&peer, &length);
    if (n < 0) return;
    receive(&peer, packet, (size_t)n);
  }
}

/* Handles what came on a connection and its timers, and sends. */
static void serve(quic_connection *c) {
  int error = ngtcp2_conn_handle_expiry(c->conn, quic_now());
  if (error == 0 && !c->closing) {
    h3_settle(&c->h3);
    quic_sweep(c);
    if (!c->closing) error = quic_write_packets(c);
  }
  if (error != 0 || c->closing) end_connection(c, error);
}

void quic_run(double seconds, bool (*stop)(void)) {
  uint64_t end = quic_now() + (uint64_t)(seconds * 1e9);
  while (quic_now() < end && !stop()) {
    for (quic_connection **at = &connections, *c; (c = *at) != NULL;) {
      if (!c->end) serve(c);
      if (c->end && c->end <= quic_now()) free_first(at);
      else at = &c->next;
    }
    wait_for_packets();
    receive_packets();
  }
  while (connections) {
    quic_close(&connections->h3, WT_H3_NO_ERROR);
    if (!connections->end) end_connection(connections, 0);
    free_first(&connections);
  }
  gnutls_certificate_free_credentials(credentials);
  close(udp);
}
