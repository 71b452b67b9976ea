/* Connections: the second part of wtransport.h, which includes this file. */
#ifndef WTRANSPORT_CONNECTION_H
#define WTRANSPORT_CONNECTION_H
#include "wtransport.h"
#ifdef __cplusplus
extern "C" {
#endif

/* ---- Connections (RFC 9114; WebTransport over HTTP/3) ----

   What is next on each stream of the peer, with messages and sessions. The caller keeps a
   wt_connection, and for each stream of the peer a wt_stream and the bytes that were not consumed:
   a QUIC stream that the peer opened, and the peer's half of one that was opened here. What the own
   endpoint sends is written by the calls above.

   The words of the structs have no meaning for the caller, and no pointers in them: they may be
   copied, stored and compared. Other words than those that a call made are refused with WT_INVALID,
   and change nothing, or they are those of another state.

   Bytes that are held. A session's own stream may hold the first bytes of a capsule, in the array
   `held` of wt_receive and wt_receive_pushed. wt_stream_answer, wt_session_known, wt_stream_join,
   wt_stream_waits, wt_stream_belongs, wt_stream_reset, wt_stream_stop, wt_stream_abandon and
   wt_stream_overflow take the struct of a stream without them: what they return and how they change
   the struct is the same whatever these bytes are, and they stay as they are in the array; none are
   held any more if the event says so. A struct that no stream has with any bytes is refused. But how
   far the capsule is they do not look at: words of that which no call made are refused by wt_receive
   and wt_receive_pushed alone.

   Limits. 16 streams wait for sessions that are to come, and the next one is refused. 64 interim
   responses are read, 1,024 frames in a row without anything for the caller, and SETTINGS of 4,096
   bytes. The other limits are in wt_endpoint. How many bytes the caller keeps for a stream is its
   own limit, of which wt_stream_overflow tells. */

/* The version of the structs. Another one may give their words another meaning. */
enum { WT_ABI = 1 };

typedef struct wt_connection {
  uint64_t words[32];
} wt_connection;

typedef struct wt_stream {
  uint64_t words[26];
} wt_stream;

enum { WT_SIDE_CLIENT = 0, WT_SIDE_SERVER = 1 };

/* The own endpoint. Its limits have no default: for SETTINGS_MAX_FIELD_SECTION_SIZE announce
   max_fields. */
typedef struct wt_endpoint {
  uint8_t side;         /* one of WT_SIDE_.. */
  uint8_t webtransport; /* 1 if the own SETTINGS enable WebTransport, otherwise 0 */
  uint8_t datagrams;    /* 1 if they enable HTTP datagrams */
  uint8_t extended;     /* 1 if they enable extended CONNECT, as a server for sessions does */
  uint32_t max_section; /* the largest encoded field section that is read, in bytes: 65536, say */
  uint64_t max_fields;  /* the largest decoded field section: for each field the lengths of its name
                           and its value, and 32 */
  uint64_t max_datagram; /* the longest datagram of a capsule that is returned, at most 65535: a
                            longer one is dropped */
  uint64_t reserved[5];  /* 0 */
} wt_endpoint;

/* Begins a connection. WT_INVALID: abi is not WT_ABI, or a number of *endpoint is out of its
   range. */
int wt_connection_new(uint32_t abi, const wt_endpoint *endpoint, wt_connection *connection);

/* Whether the settings of both ends allow sessions: 1 or 0, which it is before the SETTINGS of the
   peer came; or WT_INVALID. They do if both ends enable HTTP datagrams (0x33) and WebTransport (the
   peer by one of 0x2b603742, 0xc671706a and 0x14e9cd29), and the server extended CONNECT (0x08). So
   with 1 datagrams may be sent too. A client asks before it sends a request for a session. */
int wt_connection_allows_sessions(const wt_connection *connection);

/* At a client: whether the request on the stream with this ID is not processed by the server, as
   its GOAWAY says, and may be sent again on another connection (RFC 9114, section 5.2): 1 or 0; or
   WT_INVALID. */
int wt_connection_unprocessed(const wt_connection *connection, uint64_t id);

/* The settings of the peer: the value of each setting that has a name, or its default. */
typedef struct wt_peer_settings {
  uint64_t qpack_max_table_capacity;  /* 0x01, by default 0 */
  uint64_t max_field_section_size;    /* 0x06: do not send a larger one; UINT64_MAX, which is the
                                         default, if there is no limit */
  uint64_t qpack_blocked_streams;     /* 0x07, by default 0 */
  uint64_t webtransport_max_sessions; /* 0xc671706a, by default 0 */
  uint64_t wt_max_sessions;           /* 0x14e9cd29, of later drafts, by default 0 */
  uint8_t enable_connect_protocol;    /* 0x08: 1 or 0, which is the default */
  uint8_t h3_datagram;                /* 0x33: the same */
  uint8_t enable_webtransport;        /* 0x2b603742: the same */
  uint8_t came;                       /* 1 if SETTINGS of the peer came, otherwise 0 */
  uint32_t reserved_half;             /* 0 */
  uint64_t reserved[2];               /* 0 */
} wt_peer_settings;

/* Says what the settings of the peer are: those of its SETTINGS, from WT_EVENT_SETTINGS on. Before
   it each has its default, or is the one remembered. Settings without a name here are in the
   event's bytes, for wt_settings_read. WT_INVALID: *connection is not valid. */
int wt_connection_settings(const wt_connection *connection, wt_peer_settings *settings);

/* Begins the connection of a client that resumes a session of TLS and sends early data (0-RTT).
   *remembered is what wt_connection_settings said in that session: these are the server's settings
   until its SETTINGS come, which must keep them (RFC 9114, section 7.2.4.2): otherwise the event
   is WT_EVENT_CONNECTION_ERROR. Sessions are possible once SETTINGS came: a request for one is not
   sent as early data. If remembered->came is 0, as where TLS gave the ticket before SETTINGS came,
   nothing is remembered: this is then wt_connection_new, as it is at a server. WT_INVALID: as
   wt_connection_new, or a number of *remembered is out of its range: the value of a setting is below
   2^62, if it is not the UINT64_MAX of no limit. */
int wt_connection_resuming(uint32_t abi, const wt_endpoint *endpoint,
                           const wt_peer_settings *remembered, wt_connection *connection);

/* Says that the server did not accept early data: until its SETTINGS come each setting has its
   default again, and they need not keep what is remembered. Nothing changes after its SETTINGS, and
   if no session is resumed. WT_INVALID: *connection is not valid. */
int wt_early_data_refused(wt_connection *connection);

/* Begins a stream that the peer opened, by its ID. WT_INVALID: *connection is not valid. */
int wt_stream_accept(wt_connection *connection, uint64_t id, wt_stream *stream);

enum { WT_ASKED_OTHER = 0, WT_ASKED_HEAD = 1, WT_ASKED_CONNECT = 2, WT_ASKED_SESSION = 3 };

/* Begins the response to an own request, by what that asks for: one of WT_ASKED_..
   WT_INVALID: asked is another number, or *connection is not valid. */
int wt_stream_of_request(const wt_connection *connection, uint32_t asked, wt_stream *stream);

/* Begins the peer's half of a bidirectional stream that was opened here for a session: it has no
   header. A unidirectional one has no such half, but may have a wt_stream too: wt_stream_belongs then
   finds it when the session ends. WT_OK. */
int wt_stream_of_session(uint64_t session, wt_stream *stream);

/* What an event is. `number` is its number, and `detail` its detail. */
enum {
  WT_EVENT_MORE = 0,     /* more bytes are needed */
  WT_EVENT_WAITS = 1,    /* the stream waits: detail is one of WT_WAITS_.., number the session, or
                            how many insertions into the dynamic table it needs */
  WT_EVENT_OPENED = 2,   /* what the stream is for: detail is one of WT_PURPOSE_.. */
  WT_EVENT_JOINS = 3,    /* the stream belongs to the session `number`: call wt_stream_join */
  WT_EVENT_JOINED = 4,   /* that session is open: the bytes of the stream follow */
  WT_EVENT_SETTINGS = 5, /* its payload, for wt_settings_read, is in the bytes */
  WT_EVENT_GOAWAY = 6,   /* number is its ID */
  WT_EVENT_FRAME = 7,    /* another frame of the control stream: detail is its type, and its payload
                            is in the bytes */
  WT_EVENT_HEADERS = 8,  /* fields: detail is one of WT_HEADERS_.., number a response's status */
  WT_EVENT_SESSION_REQUESTED = 9, /* at a server, fields: a request for a session */
  WT_EVENT_SESSION_READY = 10,    /* at a client, fields: the response that accepts it, with the
                                     status `number` */
  WT_EVENT_REJECTED = 11,       /* at a client, fields: the head of one that does not, with the status
                                   `number`; its content and its end follow */
  WT_EVENT_SESSION_CLOSED = 12, /* number is the application's code; its reason is in out */
  WT_EVENT_SESSION_LOST = 13,   /* the session ended otherwise */
  WT_EVENT_DATAGRAM = 14, /* of a capsule: it is in out. Of wt_datagram_receive, with detail 1: it
                             is in the bytes, and number is the session */
  WT_EVENT_DRAINING = 15, /* the session is to be closed soon */
  WT_EVENT_SKIPPED = 16,  /* nothing for the application */
  WT_EVENT_DATA = 17,     /* a piece of content, in the bytes */
  WT_EVENT_STREAM_DATA = 18, /* a piece of a stream of a session, in the bytes */
  WT_EVENT_TOO_LARGE = 19,   /* fields above the limits; number is their size if detail is 1 */
  WT_EVENT_MALFORMED = 20,   /* the message is malformed by the rule `detail`, one of WT_RULE_..;
                                number is WT_H3_MESSAGE_ERROR, for its stream */
  WT_EVENT_STREAM_ERROR = 21,     /* number is the error code, for the stream: reset and stop it */
  WT_EVENT_CONNECTION_ERROR = 22, /* number is the error code, for the connection: close it */
  WT_EVENT_RESET = 23, /* the peer reset the stream: reset the own half too, with the code `number`
                          if detail is 1 */
  WT_EVENT_END = 24,     /* the stream ended */
  WT_EVENT_INSERTED = 26 /* of QPACK's encoder stream, with a table: number is how many entries were
                            inserted into it. Read again the streams that wait for no more */
};

/* A session is over after WT_EVENT_SESSION_CLOSED and WT_EVENT_SESSION_LOST, on its own stream:
   reset and stop all streams that belong to it, with WT_WEBTRANSPORT_SESSION_GONE. After
   WT_EVENT_CONNECTION_ERROR the event is always WT_EVENT_MORE, and all bytes are consumed; but
   wt_receive_pushed says WT_EVENT_SKIPPED first if the bytes held and the chunk are more than `room`
   has room for, and wt_datagram_receive says WT_EVENT_SKIPPED. */

enum {
  WT_PURPOSE_CONTROL = 0,
  WT_PURPOSE_ENCODER = 2, /* QPACK's */
  WT_PURPOSE_DECODER = 3,
  WT_PURPOSE_SESSION = 4, /* for wt_stopped alone: a stream of a session joins it */
  WT_PURPOSE_MESSAGE = 6, /* a request */
  WT_PURPOSE_IGNORED = 8  /* of an unknown type */
};

enum {
  WT_HEADERS_REQUEST = 0,
  WT_HEADERS_INTERIM = 1,
  WT_HEADERS_RESPONSE = 2,
  WT_HEADERS_TRAILERS = 3
};

enum {
  WT_WAITS_NOTHING = 0,
  WT_WAITS_SESSION = 1,
  WT_WAITS_SETTINGS = 2,
  WT_WAITS_ANSWER = 3,
  WT_WAITS_TABLE = 4 /* QPACK's dynamic table: for as many insertions as the number says */
};

/* The rules of messages (RFC 9114, sections 4.1 to 4.4; RFC 9297, section 3.2). */
enum {
  WT_RULE_INVALID_NAME = 1,
  WT_RULE_INVALID_VALUE = 2,
  WT_RULE_CONNECTION_FIELD = 3,
  WT_RULE_INVALID_TE = 4,
  WT_RULE_UNKNOWN_PSEUDO_HEADER = 5,
  WT_RULE_LATE_PSEUDO_HEADER = 6,
  WT_RULE_REPEATED_PSEUDO_HEADER = 7,
  WT_RULE_INVALID_CONTENT_LENGTH = 8,
  WT_RULE_MISSING_METHOD = 9,
  WT_RULE_INVALID_METHOD = 10,
  WT_RULE_MISSING_SCHEME = 11,
  WT_RULE_INVALID_SCHEME = 12,
  WT_RULE_MISSING_PATH = 13,
  WT_RULE_INVALID_PATH = 14,
  WT_RULE_MISSING_AUTHORITY = 15,
  WT_RULE_INVALID_AUTHORITY = 16,
  WT_RULE_CONNECT_WITH_TARGET = 17,
  WT_RULE_UNEXPECTED_PROTOCOL = 18,
  WT_RULE_INVALID_PROTOCOL = 19,
  WT_RULE_CONTENT_FIELD = 20,
  WT_RULE_MISSING_STATUS = 21,
  WT_RULE_INVALID_STATUS = 22,
  WT_RULE_UNEXPECTED_STATUS = 23,
  WT_RULE_MISSING_HEAD = 24,
  WT_RULE_CONTENT_TOO_LONG = 25,
  WT_RULE_CONTENT_TOO_SHORT = 26
};

/* An event. What is in the bytes that were passed is `length` bytes from bytes[offset] on. */
typedef struct wt_event {
  uint32_t kind; /* one of WT_EVENT_.. */
  uint32_t detail;
  uint64_t number;
  size_t consumed; /* the bytes that are consumed with it: the credit for QUIC's flow control */
  size_t offset, length;
  size_t fields;        /* the fields that it has, in the array of the caller */
  size_t used;          /* the bytes of their texts, or of a reason or a datagram, in out */
  size_t held;          /* the bytes that the stream holds after it, of a capsule that is cut */
  uint64_t reserved[4]; /* 0 */
} wt_event;

/* Reads what is next in the bytes of a stream after those that were consumed before; fin is not 0
   if the stream ends right after them. Call it until WT_EVENT_MORE or WT_EVENT_WAITS: the bytes
   that were not consumed are then to be passed again, with more after them, or when the wait is
   over. It allocates.
   `held` keeps the bytes of a capsule that is cut between two calls of a session's own stream: at
   most 15 of its type and length, or the bytes of its value that came, which are those of a close, at
   most 1028, or of a datagram, at most max_datagram. So room for 1028 bytes, or for max_datagram if
   that is more, suffices (as tests see; a call with too little says how much it needs, and changes
   nothing). Other streams hold none, and may have null. `table` is QPACK's dynamic table (below), or
   null, with the length 0, if the own SETTINGS allow none.
   A stream that does not wait leaves at most max_section + 16 bytes, or 4112 if that is more: QUIC's
   window of a stream has to be at least that, or the stream stands still. max_fields / 32 elements of
   `fields` suffice, and as many bytes of `out` as the largest of max_fields, max_datagram and 1024.
   WT_OK: *event is the event. Its fields are the first event->fields of `fields`, with their texts
   in `out`; event->used bytes of `out` are these texts, or what the comments above say.
   WT_BUFFER_TOO_SMALL: an array is too short; *event is the event that comes with enough room, and
   nothing else changed. WT_INVALID: *connection, *stream, the held bytes or the table are not valid.
   WT_MEMORY. */
int wt_receive(wt_connection *connection, wt_stream *stream, uint8_t *held, size_t held_room,
               uint8_t *table, size_t table_length, const uint8_t *bytes, size_t length,
               uint8_t fin, wt_event *event, wt_field *fields, size_t fields_room, uint8_t *out,
               size_t out_room);

/* ---- QUIC stacks that give each byte once ----

   ngtcp2, aioquic and others give the bytes of a stream once, in chunks. wt_receive_pushed takes
   such a chunk, and holds what wt_receive would leave, in an array of the caller, `room`. The caller
   keeps a wt_hold and its array for each stream, beside the wt_stream:

     do {
       answer = wt_receive_pushed(&connection, &s->state, s->held, sizeof s->held, NULL, 0, &s->hold,
                                  s->room, sizeof s->room, chunk, length, fin, &event, fields, 64,
                                  out, sizeof out);
       if (answer != WT_OK) return answer;
       bytes = (s->hold.in_array ? s->room : chunk) + event.offset;
       chunk += s->hold.taken;
       length -= s->hold.taken;
       act(s, &event, bytes, fields, out);
     } while (event.kind != WT_EVENT_MORE && event.kind != WT_EVENT_WAITS);
     if (length > 0) answer = wt_stream_overflow(&connection, &s->state, &event);

   When the wait of a stream is over, the same is called with a chunk of length 0. */

/* The bytes of a stream that are held. It begins as {0}. */
typedef struct wt_hold {
  size_t start, end;   /* they are room[start] to room[end - 1] */
  size_t taken;        /* after a call: how many bytes of the chunk it took */
  uint8_t fin;         /* 1 if the stream ends after the bytes that came, otherwise 0 */
  uint8_t in_array;    /* after WT_OK: 1 if the bytes of the event are in `room`, 0 if in the chunk */
  uint8_t reserved[6]; /* 0 */
} wt_hold;

/* Reads what is next on a stream: as wt_receive in the bytes of the chunk if none are held, and
   otherwise in those that are held and as many of the chunk as `room` has room for. fin is not 0 if
   the stream ends right after the chunk, and need not be said again with the bytes that were not
   taken. It allocates.
   WT_OK: *event is the event, with its bytes where hold->in_array says, until the next call. The next
   one is to be called with the bytes of the chunk from the first hold->taken on. Call it until
   WT_EVENT_MORE or WT_EVENT_WAITS: all bytes were then taken, or those that were not consumed are more
   than `room` has room for: go on with a longer array that begins with the same bytes, or call
   wt_stream_overflow. After other events no byte of the chunk is held. event->consumed is the credit
   for QUIC's flow control, here too. Where a chunk is longer than the array, WT_EVENT_SKIPPED also says
   that some of it was not read yet.
   An array of 16 bytes more than max_section, and of at least 4112, has room for each stream that does
   not wait; a stream that waits for its session or for an answer needs as many bytes as the caller
   keeps of one.
   The other answers are those of wt_receive. The same bytes are then held, if at another place, and
   none of the chunk was taken: hold->taken is 0, and the chunk is to be passed again, with its fin.
   Also WT_INVALID: *hold is not the hold of an array as long as `room`. The call uses all of `room`:
   what is there beside the bytes held, and those of the event, is not specified.
   After wt_stream_reset, wt_stream_abandon and wt_stream_overflow the bytes that are held are in no
   event->consumed: credit them for the connection's flow control yourself, and begin the hold as {0}
   again. The same holds for the bytes of the chunk that were not taken, unless you pass them to
   another call: the WT_EVENT_MORE of a stream that is over consumes them. */
int wt_receive_pushed(wt_connection *connection, wt_stream *stream, uint8_t *held, size_t held_room,
                      uint8_t *table, size_t table_length, wt_hold *hold, uint8_t *room,
                      size_t room_length, const uint8_t *chunk, size_t length, uint8_t fin,
                      wt_event *event, wt_field *fields, size_t fields_room, uint8_t *out,
                      size_t out_room);

/* Says that the CONNECT request of a stream is answered with this status, after the answer was
   written: with 2xx its session is open. 1xx changes nothing. WT_INVALID: *stream is not valid. */
int wt_stream_answer(wt_stream *stream, uint32_t status);

/* What is known of a session. */
enum {
  WT_KNOWN_COMING = 0,    /* its request has not come, or has no answer yet */
  WT_KNOWN_OPEN = 1,      /* it is open */
  WT_KNOWN_OVER = 2,      /* it is over */
  WT_KNOWN_REFUSED = 3,   /* its request was refused, or ended before its HEADERS */
  WT_KNOWN_OTHER = 4,     /* its request asked for something else */
  WT_KNOWN_IMPOSSIBLE = 5 /* no session can have this ID */
};

/* Says what is known of a session. `its` is the stream with that ID, if the caller has it: an array
   of 0 or 1. A client keeps the stream of each session that it asked for as long as the connection
   lives.
   WT_OK: *known is one of WT_KNOWN_.. WT_INVALID: there are several streams, or *connection or the
   stream is not valid. */
int wt_session_known(const wt_connection *connection, uint64_t session, const wt_stream *its,
                     size_t count, uint32_t *known);

/* Says what is known of the session of a stream: after WT_EVENT_JOINS, and when it changes for a
   stream that waits for it.
   WT_OK: *event is WT_EVENT_JOINED, and its bytes follow; WT_EVENT_WAITS, and they are to be passed
   again after the next call; WT_EVENT_STREAM_ERROR or WT_EVENT_CONNECTION_ERROR; or WT_EVENT_MORE
   if nothing changes. WT_INVALID: known is none of WT_KNOWN_.., or *connection or *stream is not
   valid. */
int wt_stream_join(wt_connection *connection, wt_stream *stream, uint32_t known, wt_event *event);

/* Says what a stream waits for.
   WT_OK: *waits is one of WT_WAITS_.., and *session is the session that it waits for, or how many
   insertions into the dynamic table, otherwise 0.
   WT_INVALID: *stream is not valid. */
int wt_stream_waits(const wt_stream *stream, uint32_t *waits, uint64_t *session);

/* Says which session a stream belongs to, or waits for. A session's own stream belongs to none.
   WT_OK: *belongs is 1, and *session is the session; or both are 0. WT_INVALID: *stream is not
   valid. */
int wt_stream_belongs(const wt_stream *stream, uint32_t *belongs, uint64_t *session);

/* The peer reset a stream: what was not read of it is lost.
   WT_OK: *event is WT_EVENT_SESSION_LOST, WT_EVENT_RESET, WT_EVENT_CONNECTION_ERROR, or
   WT_EVENT_MORE if the stream was over before. WT_INVALID, here and in the next three calls:
   *connection or *stream is not valid. */
int wt_stream_reset(wt_connection *connection, wt_stream *stream, wt_event *event);

/* The peer asked to stop the own half of a bidirectional stream (STOP_SENDING): reset that half.
   WT_OK: *event is WT_EVENT_SESSION_LOST if an open session ends by that, and otherwise
   WT_EVENT_MORE. No session can follow a stop before the answer: a server then abandons the
   stream; a client reads on, since a response counts although its request was stopped (RFC 9114,
   section 4.1), and abandons the stream after WT_EVENT_SESSION_READY. */
int wt_stream_stop(wt_connection *connection, wt_stream *stream, wt_event *event);

/* A stream is read no further, for a reason of the application; so a session is closed, after its
   capsule and the end were written.
   WT_OK: *event is WT_EVENT_SESSION_LOST if an open session ends by that, and otherwise
   WT_EVENT_MORE. Later bytes of the stream are consumed, and give WT_EVENT_MORE. The control stream
   and those of QPACK stay as they are. */
int wt_stream_abandon(wt_connection *connection, wt_stream *stream, wt_event *event);

/* More bytes of a stream wait than the caller keeps: it is over.
   WT_OK: *event is WT_EVENT_STREAM_ERROR if it waits for its session, and otherwise
   WT_EVENT_CONNECTION_ERROR; or WT_EVENT_MORE if it was over. */
int wt_stream_overflow(wt_connection *connection, wt_stream *stream, wt_event *event);

/* The peer asked to stop a unidirectional stream that was opened here, for this purpose
   (WT_PURPOSE_CONTROL, _ENCODER, _DECODER or _SESSION): reset it. WT_ERROR: *error_code is
   WT_H3_CLOSED_CRITICAL_STREAM, for the connection. WT_INVALID: the purpose is another, or
   *connection is not valid. */
int wt_stopped(wt_connection *connection, uint32_t purpose, uint64_t *error_code);

/* Reads a QUIC datagram.
   WT_OK: *event is WT_EVENT_DATAGRAM with detail 1; WT_EVENT_SKIPPED if it is to be dropped; or
   WT_EVENT_CONNECTION_ERROR. WT_INVALID: *connection is not valid. */
int wt_datagram_receive(wt_connection *connection, const uint8_t *bytes, size_t length,
                        wt_event *event);

enum {
  WT_DATAGRAM_DELIVER = 0, /* it is the application's */
  WT_DATAGRAM_EARLY = 1,   /* its session is to come: keep it for about a round trip, or drop it */
  WT_DATAGRAM_DROP = 2,    /* drop it */
  WT_DATAGRAM_END_STREAM = 3 /* drop it, and reset and stop the stream of that ID with
                                WT_H3_DATAGRAM_ERROR */
};

/* What to do with a datagram, by what is known of its session: one of WT_DATAGRAM_.., or
   WT_INVALID. */
int wt_datagram_use(uint32_t known);

/* ---- QPACK's dynamic table (RFC 9204) ----

   An endpoint whose SETTINGS have SETTINGS_QPACK_MAX_TABLE_CAPACITY (0x01) and
   SETTINGS_QPACK_BLOCKED_STREAMS (0x07) above 0 lets its peer refer to fields that it sent before. It
   keeps the table in an array of its own, without pointers, and passes that to wt_receive and
   wt_receive_pushed from the first byte on: for the encoder stream of the peer and for the streams of
   requests. The streams of sessions, and that of a session once it is open, need no table: a call
   without one reads them in the same way, and sooner.

     uint8_t *table = malloc(wt_table_size(4096));
     wt_table_new(4096, table, wt_table_size(4096));
     ..
     answer = wt_receive(&connection, &s->state, s->held, sizeof s->held, table, wt_table_size(4096),
                         ..);
     wt_table_acknowledge(table, wt_table_size(4096), id, out, sizeof out, &used);

   A stream whose section needs insertions that did not come yet waits: WT_EVENT_WAITS with
   WT_WAITS_TABLE. It is to be read again once the number of a WT_EVENT_INSERTED, or of
   wt_table_insert_count, is not below its own. The caller counts the streams that wait so, and calls
   wt_too_many_blocked where there are more than its SETTINGS allow.

   What is written here is for the own decoder stream, which begins with its type
   (wt_stream_header_write). `out` needs at most 11 bytes.

   The table needs the same array in all calls: one that is shorter than wt_table_size says, or that
   begins with other bytes than those of a table, is WT_INVALID. What follows the bytes of the table
   in the array is not read, and stays. */

/* The size of the array for a table of which the own SETTINGS allow this capacity, in bytes: 104 bytes
   more than five times the capacity. It is enough for every state of the table. 0: the capacity is 2^60
   or more. WT_TABLE_SIZE is the same for a smaller constant. */
#define WT_TABLE_SIZE(capacity) ((size_t)104 + 5 * (size_t)(capacity))
size_t wt_table_size(uint64_t capacity);

/* Makes a table without entries. WT_INVALID: the capacity is 2^60 or more, or the array is shorter than
   wt_table_size says. WT_MEMORY. */
int wt_table_new(uint64_t capacity, uint8_t *table, size_t table_length);

/* Says how many entries were inserted into a table. WT_INVALID, here and in the next three calls: the
   array has no table. WT_MEMORY. */
int wt_table_insert_count(const uint8_t *table, size_t table_length, uint64_t *count);

/* Writes the acknowledgment of the field section that the last call of wt_receive or wt_receive_pushed
   with this table read, if it was read with the table (RFC 9204, section 4.4.1). id is the ID of the
   stream of that call. Call it after each of these calls, whatever the event is, and before the next
   one: a message that is malformed has a section that was read, too. It writes once, and nothing if
   this stream was cancelled since.
   WT_OK: *used is the size, or 0 if nothing is due. WT_BUFFER_TOO_SMALL: *used is the size, and
   nothing else changed. WT_MEMORY. */
int wt_table_acknowledge(uint8_t *table, size_t table_length, uint64_t id, uint8_t *out, size_t room,
                         size_t *used);

/* Writes how many insertions the peer was not told of, if there are any (RFC 9204, section 4.4.3).
   Acknowledgments tell it of those that sections needed; when to tell it of others is the caller's
   choice: after WT_EVENT_INSERTED, for example. The answers are those of wt_table_acknowledge. */
int wt_table_increment(uint8_t *table, size_t table_length, uint8_t *out, size_t room, size_t *used);

/* Writes the cancellation of the stream with this ID, unless the capacity is 0 (RFC 9204, section
   4.4.2). It writes at each call: call it once, after wt_table_acknowledge, for each stream of a
   message whose reading ends before WT_EVENT_END. That is after WT_EVENT_RESET, WT_EVENT_MALFORMED,
   WT_EVENT_STREAM_ERROR and WT_EVENT_TOO_LARGE, and where the stream is abandoned. What is to be
   acknowledged on another stream still is; after the cancellations of two streams, before it is
   acknowledged, nothing is. The answers are those of wt_table_acknowledge. */
int wt_table_cancel(uint8_t *table, size_t table_length, uint64_t id, uint8_t *out, size_t room,
                    size_t *used);

/* Says that more streams wait for the table than the own SETTINGS allow (RFC 9204, section 2.1.2).
   WT_OK: *event is WT_EVENT_CONNECTION_ERROR with WT_QPACK_DECOMPRESSION_FAILED, or WT_EVENT_MORE
   after an error of the connection. WT_INVALID: *connection is not valid. */
int wt_too_many_blocked(wt_connection *connection, wt_event *event);

/* ---- GOAWAY ----

   The own control stream begins with its type (wt_stream_header_write) and SETTINGS (wt_frame_write);
   after these this library has one more frame for it, GOAWAY. There are no others that an endpoint
   must send: MAX_PUSH_ID and CANCEL_PUSH are of pushes, which this library does not have. */

#define WT_NO_GOAWAY UINT64_C(0xffffffffffffffff)

/* Writes a GOAWAY frame (RFC 9114, sections 5.2 and 7.2.6). side is this endpoint, one of WT_SIDE_..
   At a server requests on streams from this ID on are not processed: 2^62 - 4 first, and when no more
   of them can be under way, the ID after the last one that was processed. At a client pushes from
   this push ID on are not: 0. *last is the ID of the last GOAWAY, and WT_NO_GOAWAY before the first:
   an ID may be sent again, and a lower one.
   WT_OK, WT_BUFFER_TOO_SMALL: as above. With WT_OK *last is the ID. WT_INVALID: side is another number,
   the ID is 2^62 or more or above *last, or at a server it is not that of a bidirectional stream that a
   client opened. */
int wt_goaway_write(uint8_t side, uint64_t id, uint64_t *last, uint8_t *out, size_t room, size_t *used);

/* ---- Requests that are reset before their answer (RFC 9114, sections 4.1.1 and 10.5) ----

   A client that sends requests and resets them at once costs a server work, and QUIC's limit of
   streams does not bound it: a stream that is reset makes room for the next one. A server counts them,
   with the same struct for all requests of a connection. */

typedef struct wt_request_budget {
  uint64_t excess;  /* how many more requests may be reset before their answer than are answered: 100,
                       say */
  uint64_t answers; /* how many were answered: 0 at first */
  uint64_t resets;  /* how many were reset before their answer: 0 at first */
} wt_request_budget;

/* Counts a request that was answered: one whose final response was sent. WT_OK. */
int wt_request_answered(wt_request_budget *budget);

/* Counts a request that its client reset before it was answered.
   WT_OK: go on. WT_ERROR: more were reset than were answered and the excess together; *error_code is
   WT_H3_EXCESSIVE_LOAD, for the connection. Every later call then returns it too, and counts nothing. */
int wt_request_reset(wt_request_budget *budget, uint64_t *error_code);

#ifdef __cplusplus
}
#endif
#endif
