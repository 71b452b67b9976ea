/* What an endpoint sends: the third part of wtransport.h, which includes this file. */
#ifndef WTRANSPORT_SENDING_H
#define WTRANSPORT_SENDING_H
#include "wtransport.h"
#ifdef __cplusplus
extern "C" {
#endif

/* ---- Sending (RFC 9114, sections 4 and 6.2.1; WebTransport over HTTP/3) ----

   A wt_sending knows what was sent on the stream of a request, and so what may be sent next: the
   caller keeps one beside the wt_stream of each request that it sends or answers, and a wt_control
   for the own control stream. A call writes all of its bytes to the start of `out`, which are to go
   to that stream right after those of the calls before, or it writes nothing. Only with WT_OK it
   changes the struct: after any other answer the same call, or another one, can be made.

   The words of the structs have no meaning for the caller, and no pointers in them: they may be
   copied, stored and compared. Other words than those that a call made are refused with WT_INVALID,
   as those of a struct of zeros are, or they are those of another state. */

typedef struct wt_sending {
  uint64_t words[12];
} wt_sending;

typedef struct wt_control {
  uint64_t words[8];
} wt_control;

/* Why a call returned WT_REFUSED, in *why: a rule that the message would break, one of WT_RULE_..,
   or one of these. No other answer changes *why. */
enum {
  WT_SEND_UNEXPECTED = 64,       /* this may not be sent now */
  WT_SEND_DATA_MISSING = 65,     /* bytes of the last DATA frame are still to be sent */
  WT_SEND_DATA_EXCEEDED = 66,    /* there are more bytes than the last DATA frame has left */
  WT_SEND_EMPTY_DATA = 67,       /* a DATA frame would have no bytes */
  WT_SEND_TOO_LARGE = 68,        /* more than the peer accepts, or than there can be */
  WT_SEND_TOO_MANY_INTERIM = 69, /* there were 64 interim responses */
  WT_SEND_INVALID_ID = 70,       /* of GOAWAY, at a server: it is not that of a request */
  WT_SEND_ID_RISES = 71,         /* of GOAWAY: it is above the last one */
  WT_SEND_UNSUPPORTED = 72       /* the peer does not support sessions */
};

/* Writes the name of a reason: "DataMissing", or "MissingPath" for a rule. It does not allocate.
   WT_OK, WT_BUFFER_TOO_SMALL: as above. WT_INVALID: no reason has this number. */
int wt_send_reason_name(uint32_t why, char *out, size_t room, size_t *used);

/* ---- The own control stream ---- */

/* Begins the control stream of this end of the connection. There is no call that ends it, since it
   is never ended. WT_INVALID: *connection is not valid. */
int wt_control_new(const wt_connection *connection, wt_control *control);

/* Writes the type of the stream and SETTINGS, its first bytes: these settings in their order. It
   allocates.
   WT_OK, WT_BUFFER_TOO_SMALL: as above. WT_REFUSED: WT_SEND_UNEXPECTED after the first time, or
   WT_SEND_TOO_LARGE for more than the 4,096 bytes of settings that this library reads. WT_INVALID:
   *control is not valid, or the settings are none that wt_settings_write writes. WT_MEMORY. */
int wt_control_settings(wt_control *control, const wt_setting *settings, size_t count,
                        uint8_t *out, size_t room, size_t *used, uint32_t *why);

/* Writes GOAWAY (RFC 9114, section 5.2). At a server requests on streams from this ID on are not
   processed: 2^62 - 4 first, and when no more of them can be under way, the ID after the last one
   that was processed. At a client pushes from this push ID on are not: 0. An ID may be sent again,
   and a lower one. It does not allocate.
   WT_OK, WT_BUFFER_TOO_SMALL: as above. WT_REFUSED: WT_SEND_UNEXPECTED before SETTINGS,
   WT_SEND_INVALID_ID, or WT_SEND_ID_RISES. WT_INVALID: *control is not valid, or the ID is 2^62 or
   more. */
int wt_control_goaway(wt_control *control, uint64_t id, uint8_t *out, size_t room, size_t *used,
                      uint32_t *why);

/* ---- Messages ---- */

/* Begins the stream of a request, at a client, by its ID. What may be sent is by the settings of the
   peer as they are now: before they came each has its default, with which no session is possible.
   WT_REFUSED: WT_SEND_UNEXPECTED after a GOAWAY of the server and after an error of the connection.
   WT_INVALID: the ID is not that of a bidirectional stream of a client, or *connection is not valid,
   or a server's. */
int wt_sending_request(const wt_connection *connection, uint64_t id, wt_sending *sending,
                       uint32_t *why);

/* Begins the response to a request that came, at a server, by the ID of its stream and by what it
   asks for, one of WT_ASKED_..: WT_ASKED_SESSION after WT_EVENT_SESSION_REQUESTED, and after
   WT_EVENT_HEADERS by its :method.
   WT_REFUSED: WT_SEND_UNEXPECTED after an error of the connection. WT_INVALID: the ID is not that of
   a bidirectional stream of a client, asked is another number, or *connection is not valid, or a
   client's. */
int wt_sending_response(const wt_connection *connection, uint64_t id, uint32_t asked,
                        wt_sending *sending, uint32_t *why);

/* Writes a HEADERS frame: that of a request, of an interim response, or of the final one. The fields
   are those of the message, with its pseudo-header fields first (":method", ":status" and the like),
   in the form that wt_fields_write takes; their bytes need not be UTF-8. They are checked by the
   rules of their message, and written in their order, with repeated names. It allocates.
   Content or the end may follow a request, but a CONNECT waits for its answer. A 2xx response to a
   request for a session opens it: call wt_stream_answer too.
   WT_OK, WT_BUFFER_TOO_SMALL: as above. WT_REFUSED: the first of these that holds:
   WT_SEND_UNEXPECTED after the head of the message; WT_SEND_TOO_LARGE for more than the peer
   accepts; a rule that the fields break, as does a content-length in a response with status 1xx or
   204, or 2xx to a CONNECT (RFC 9110, section 8.6); WT_SEND_UNSUPPORTED for a session; or
   WT_SEND_TOO_MANY_INTERIM. WT_INVALID: *sending is not valid, or a field is not within the texts.
   WT_MEMORY. */
int wt_sending_headers(wt_sending *sending, const wt_field *fields, size_t fields_length,
                       const uint8_t *texts, size_t texts_length, uint8_t *out, size_t room,
                       size_t *used, uint32_t *why);

/* Writes the head of a DATA frame with so many bytes, at most 9 bytes. The caller sends these bytes
   right after it, in as many pieces as it likes, and says so with wt_sending_sent: they are not
   passed, and need not be copied. It does not allocate.
   WT_OK, WT_BUFFER_TOO_SMALL: as above. WT_REFUSED: WT_SEND_UNEXPECTED where no content may be;
   WT_SEND_DATA_MISSING; WT_SEND_EMPTY_DATA; WT_SEND_TOO_LARGE from 2^62 on; or
   WT_RULE_CONTENT_TOO_LONG for more than content-length announced. WT_INVALID: *sending is not
   valid. */
int wt_sending_data(wt_sending *sending, uint64_t length, uint8_t *out, size_t room, size_t *used,
                    uint32_t *why);

/* Counts bytes of the last DATA frame that were sent.
   WT_REFUSED: WT_SEND_DATA_EXCEEDED. WT_INVALID: *sending is not valid. */
int wt_sending_sent(wt_sending *sending, uint64_t length, uint32_t *why);

/* Says how many bytes of the last DATA frame are still to be sent. WT_INVALID: *sending is not
   valid. */
int wt_sending_owed(const wt_sending *sending, uint64_t *owed);

/* Writes the HEADERS frame of trailers, after which the message ends. It allocates.
   The answers are those of wt_sending_headers. WT_REFUSED: a rule that the trailers break;
   WT_RULE_CONTENT_TOO_SHORT for less content than content-length announced; WT_SEND_UNEXPECTED
   where no trailers may be; WT_SEND_DATA_MISSING; or WT_SEND_TOO_LARGE. */
int wt_sending_trailers(wt_sending *sending, const wt_field *fields, size_t fields_length,
                        const uint8_t *texts, size_t texts_length, uint8_t *out, size_t room,
                        size_t *used, uint32_t *why);

/* Ends the message. The QUIC stream is to be ended after the last bytes that were written.
   WT_REFUSED: WT_SEND_DATA_MISSING; WT_RULE_MISSING_HEAD before the head of the message;
   WT_RULE_CONTENT_TOO_SHORT; or WT_SEND_UNEXPECTED after the end. WT_INVALID: *sending is not
   valid. */
int wt_sending_finish(wt_sending *sending, uint32_t *why);

/* At a client: a 2xx response to the CONNECT of this stream came, as WT_EVENT_SESSION_READY says of
   a session. Its streams, datagrams and capsules may be sent from now on, or the bytes of a tunnel.
   WT_REFUSED: WT_SEND_UNEXPECTED on another stream, and after the first time. WT_INVALID: *sending
   is not valid. */
int wt_sending_connected(wt_sending *sending, uint32_t *why);

/* ---- Sessions ----

   *sending is that of the session's own stream. All of these return WT_REFUSED with
   WT_SEND_UNEXPECTED if its session is not open: a server did not accept it, a client was not told so
   by wt_sending_connected, or this end closed it. */

/* Write the first bytes of a unidirectional or a bidirectional stream of the session, at most 10, and
   those of a datagram, at most 8. All that follows is the application's, and need not be copied. They
   do not allocate.
   WT_OK, WT_BUFFER_TOO_SMALL: as above. WT_INVALID: *sending is not valid. */
int wt_sending_unidirectional(const wt_sending *sending, uint8_t *out, size_t room, size_t *used,
                              uint32_t *why);
int wt_sending_bidirectional(const wt_sending *sending, uint8_t *out, size_t room, size_t *used,
                             uint32_t *why);
int wt_sending_datagram(const wt_sending *sending, uint8_t *out, size_t room, size_t *used,
                        uint32_t *why);

/* Writes, for the session's own stream, a DATA frame with the capsule that says that the session is
   to be closed soon, 7 bytes. Everything may be sent as before. It does not allocate.
   WT_OK, WT_BUFFER_TOO_SMALL: as above. WT_INVALID: *sending is not valid. */
int wt_sending_drain(const wt_sending *sending, uint8_t *out, size_t room, size_t *used,
                     uint32_t *why);

/* Writes, for the session's own stream, a DATA frame with the capsule that closes the session: a
   code, and a reason in UTF-8. The QUIC stream is to be ended after it, wt_stream_abandon to be
   called, and the streams of the session to be reset. It allocates.
   WT_OK, WT_BUFFER_TOO_SMALL: as above. WT_REFUSED: WT_SEND_TOO_LARGE for a reason of more than 1,024
   bytes, or WT_SEND_UNEXPECTED. WT_INVALID: *sending is not valid, or the reason is not UTF-8.
   WT_MEMORY. */
int wt_sending_close(wt_sending *sending, uint32_t code, const uint8_t *reason, size_t length,
                     uint8_t *out, size_t room, size_t *used, uint32_t *why);

/* ---- QPACK's dynamic table (RFC 9204) ----

   A peer whose SETTINGS have SETTINGS_QPACK_MAX_TABLE_CAPACITY (0x01) above 0 allows this end to
   insert fields into a table, and to refer to them in the sections that it sends. An endpoint that
   does so keeps an encoder in an array of its own, without pointers, one for the connection, and
   passes it to wt_sending_headers_with and wt_sending_trailers_with in place of wt_sending_headers
   and wt_sending_trailers, for all streams of requests.

     wt_policy policy = {1024, 512, 64};
     uint8_t encoder[WT_ENCODER_SIZE(4096, 64)];
     wt_encoder_new(&policy, encoder, sizeof encoder);
     ..                                                      after WT_EVENT_SETTINGS:
     wt_encoder_limits(encoder, sizeof encoder, peer.qpack_max_table_capacity,
                       peer.qpack_blocked_streams, instructions, sizeof instructions, &size);
     ..
     wt_sending_headers_with(&sending, encoder, sizeof encoder, fields, count, texts, length,
                             instructions, sizeof instructions, &size, out, sizeof out, &used, &why);

   Instructions go to the own encoder stream, which begins with its type (wt_stream_header_write, 2) and
   is opened once there are some, in the order in which they were written. A section may refer to
   what the instructions of its own call insert: so hand these to QUIC before the frame. Where
   WT_EVENT_OPENED says WT_PURPOSE_DECODER, the bytes after those that it consumed are the peer's decoder
   stream: pass them to wt_encoder_receive, in their order, and credit them. wt_receive, which would
   refuse acknowledgments, is called for the end of that stream alone, without bytes.

   Before wt_encoder_limits, and if the peer allows no table, the encoder inserts nothing: sections are
   then written with the static table. No entry is evicted to which a section refers that the peer did
   not acknowledge, and no section may block more streams than the peer allows (RFC 9204, sections
   2.1.1 and 2.1.2). Which fields are inserted is by their names and by the policy: those whose values
   an attacker could guess, as authorization and short cookies, are never indexed.

   The encoder needs the same array in all calls: one that is too short for its table and its policy, or
   that begins with other bytes than those of an encoder, is WT_INVALID. What follows the bytes of the
   encoder in the array is not read, and stays. */

/* What an encoder does by itself */
typedef struct wt_policy {
  uint64_t largest;        /* the size of the largest entry that is inserted: name, value and 32 bytes */
  uint64_t reserved;       /* bytes of the table to keep available, at most half of its capacity; an
                              entry that needs some of them is not inserted */
  uint64_t unacknowledged; /* sections that refer to the table and are not acknowledged: at most so many */
} wt_policy;

/* The size of the array of an encoder with a table of this capacity, in bytes. It is enough for every
   state of the encoder. */
#define WT_ENCODER_SIZE(capacity, unacknowledged) \
  ((size_t)107 + (size_t)(capacity) + 24 * (size_t)(unacknowledged))

/* Makes an encoder without a table. WT_INVALID: the array is shorter than WT_ENCODER_SIZE(0, u), for the
   number u of the policy. WT_MEMORY. Only WT_OK changes the array. */
int wt_encoder_new(const wt_policy *policy, uint8_t *encoder, size_t encoder_length);

/* Sets what the SETTINGS of the peer announce, once they came: the limit of the capacity, and how many
   streams may be blocked. The capacity is as large as the limit and the array allow: if the array has
   n bytes, the smaller one of the limit and n - WT_ENCODER_SIZE(0, u). A limit of 2^60 or more is taken
   as 0, no table. Writes the instruction that sets the capacity, at most 11 bytes; none if it is 0.
   WT_OK: *used is the size, or 0. WT_BUFFER_TOO_SMALL: *used is the size, and nothing else changed.
   WT_INVALID: the array has no encoder, or one that has a table, entries or sections: it was called
   before. WT_MEMORY. */
int wt_encoder_limits(uint8_t *encoder, size_t encoder_length, uint64_t limit, uint64_t blocked,
                      uint8_t *out, size_t room, size_t *used);

/* Reads the next bytes of the peer's decoder stream after its type, cut anywhere.
   WT_OK. WT_ERROR: they break a rule; *code is WT_QPACK_DECODER_STREAM_ERROR, for the connection, and
   nothing else changed. WT_INVALID: the array has no encoder. WT_MEMORY: nothing changed, and the same
   bytes can be passed again. */
int wt_encoder_receive(uint8_t *encoder, size_t encoder_length, const uint8_t *bytes, size_t length,
                       uint64_t *code);

/* Says how many sections that refer to the table are not acknowledged. WT_INVALID: the array has no
   encoder. WT_MEMORY. */
int wt_encoder_unacknowledged(const uint8_t *encoder, size_t encoder_length, uint64_t *count);

/* Takes back sections that were written and are not sent: the oldest `count` of those that are not
   acknowledged stay. With the number of wt_encoder_unacknowledged before a call of
   wt_sending_headers_with, it undoes what that call noted of its section: for a frame of which no byte
   will be sent, since its stream was reset. The instructions of the call still have to be sent.
   WT_INVALID: the array has no encoder. WT_MEMORY. */
int wt_encoder_take_back(uint8_t *encoder, size_t encoder_length, uint64_t count);

/* Write what wt_sending_headers and wt_sending_trailers do, in a section that may refer to the table:
   the frame to `out`, and the instructions for the own encoder stream that come before it to
   `instructions`. They allocate.
   WT_OK: both sizes are those of what was written; *sending and the encoder changed.
   WT_BUFFER_TOO_SMALL: one of the two is too short; both sizes are those that are needed, and nothing
   else changed. The other answers are those of wt_sending_headers and wt_sending_trailers: the encoder
   stays then. WT_INVALID: also if the array has no encoder. */
int wt_sending_headers_with(wt_sending *sending, uint8_t *encoder, size_t encoder_length,
                            const wt_field *fields, size_t fields_length, const uint8_t *texts,
                            size_t texts_length, uint8_t *instructions, size_t instructions_room,
                            size_t *instructions_used, uint8_t *out, size_t room, size_t *used,
                            uint32_t *why);
int wt_sending_trailers_with(wt_sending *sending, uint8_t *encoder, size_t encoder_length,
                             const wt_field *fields, size_t fields_length, const uint8_t *texts,
                             size_t texts_length, uint8_t *instructions, size_t instructions_room,
                             size_t *instructions_used, uint8_t *out, size_t room, size_t *used,
                             uint32_t *why);

#ifdef __cplusplus
}
#endif
#endif
