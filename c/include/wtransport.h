/* The protocol core of WebTransport over HTTP/3, without a network: bytes of streams and datagrams
   are read, and the same things are written as bytes.

   Memory. There is no object to free, no callback and no hidden state. The caller owns all state,
   which is in the structs below, and all output goes to memory of the caller. Where a call
   allocates, its comment says so; it frees what it allocated before it returns, by malloc, realloc
   and free of the C library.

   Threads. Calls that share no memory may run at the same time.

   Pointers. A pointer with a length of 0 may be null. Every other pointer points to as many valid
   elements as its length says, or to one. What a call writes overlaps nothing else that it is given.
   Breaking these rules is undefined behaviour.

   Answers. A call that returns an int returns 0 or above if it found no fault, and below 0
   otherwise: one of WT_OK to WT_REFUSED below, if its comment names no other numbers. */
#ifndef WTRANSPORT_H
#define WTRANSPORT_H
#include <stddef.h>
#include <stdint.h>
#ifdef __cplusplus
extern "C" {
#endif

enum {
  WT_OK = 0,       /* done */
  WT_MORE = 1,     /* more bytes are needed */
  WT_ERROR = -1,   /* the input has a fault; *error_code is its error code */
  WT_BUFFER_TOO_SMALL = -2,    /* an output is too short; its size is reported */
  WT_INVALID = -3, /* an argument is out of its range; nothing changed */
  WT_MEMORY = -4,  /* memory allocation failed; nothing changed, and the call can be made again */
  WT_UNSUPPORTED = -5, /* what is asked for is not in this version; nothing changed */
  WT_REFUSED = -6 /* this may not be sent; *why is the reason, and nothing else changed */
};

/* Where nothing changed, there are two exceptions: the arrays of wt_fields_read, and the hold and `room`
   of wt_receive_pushed, which hold the same bytes as before. */

/* Calls that write do so at the start of `out`, which has room for `room` bytes, and change nothing
   after that. `WT_OK`: *used bytes were written. `WT_BUFFER_TOO_SMALL`: `out` did not change, and *used is the
   room that is needed; so a call with no room at all is a way to ask for the size. */

/* ---- Version ---- */

/* The version of this header. In the number each of its three parts has a byte: 0x010203 is 1.2.3. */
#define WT_VERSION "0.8.0"
#define WT_VERSION_NUMBER 0x000800

/* The version of the library, as in WT_VERSION_NUMBER. */
uint32_t wt_version(void);

/* ---- Error codes ---- */

/* The error codes that are registered for HTTP/3, QPACK, HTTP Datagrams and WebTransport over HTTP/3:
   what calls report in *error_code, and what a QUIC library closes a stream or a connection with. Each is
   WT_ and the name that wt_code_name writes. */
#define WT_H3_DATAGRAM_ERROR                     UINT64_C(0x33) /* RFC 9297, section 5.2 */
#define WT_H3_NO_ERROR                           UINT64_C(0x0100) /* RFC 9114, section 8.1 */
#define WT_H3_GENERAL_PROTOCOL_ERROR             UINT64_C(0x0101)
#define WT_H3_INTERNAL_ERROR                     UINT64_C(0x0102)
#define WT_H3_STREAM_CREATION_ERROR              UINT64_C(0x0103)
#define WT_H3_CLOSED_CRITICAL_STREAM             UINT64_C(0x0104)
#define WT_H3_FRAME_UNEXPECTED                   UINT64_C(0x0105)
#define WT_H3_FRAME_ERROR                        UINT64_C(0x0106)
#define WT_H3_EXCESSIVE_LOAD                     UINT64_C(0x0107)
#define WT_H3_ID_ERROR                           UINT64_C(0x0108)
#define WT_H3_SETTINGS_ERROR                     UINT64_C(0x0109)
#define WT_H3_MISSING_SETTINGS                   UINT64_C(0x010a)
#define WT_H3_REQUEST_REJECTED                   UINT64_C(0x010b)
#define WT_H3_REQUEST_CANCELLED                  UINT64_C(0x010c)
#define WT_H3_REQUEST_INCOMPLETE                 UINT64_C(0x010d)
#define WT_H3_MESSAGE_ERROR                      UINT64_C(0x010e)
#define WT_H3_CONNECT_ERROR                      UINT64_C(0x010f)
#define WT_H3_VERSION_FALLBACK                   UINT64_C(0x0110)
#define WT_QPACK_DECOMPRESSION_FAILED            UINT64_C(0x0200) /* RFC 9204, section 6 */
#define WT_QPACK_ENCODER_STREAM_ERROR            UINT64_C(0x0201)
#define WT_QPACK_DECODER_STREAM_ERROR            UINT64_C(0x0202)
#define WT_WEBTRANSPORT_BUFFERED_STREAM_REJECTED UINT64_C(0x3994bd84) /* draft-ietf-webtrans-http3-07 */
#define WT_WEBTRANSPORT_SESSION_GONE             UINT64_C(0x170d7b68)
#define WT_WT_FLOW_CONTROL_ERROR                 UINT64_C(0x045d4487) /* later drafts of WebTransport over HTTP/3 */
#define WT_WT_ALPN_ERROR                         UINT64_C(0x0817b3dd)
#define WT_WT_REQUIREMENTS_NOT_MET               UINT64_C(0x212c0d48)

/* ---- Numbers: variable-length integers, below 2^62 (RFC 9000, section 16) ---- */

/* Reads the number at the start of the bytes; every encoding is read.
   WT_OK: *value is the number, and *consumed the size of its encoding.
   WT_MORE: there are too few bytes; *consumed is 0. */
int wt_varint_read(const uint8_t *bytes, size_t length, uint64_t *value, size_t *consumed);

/* Writes the shortest encoding of a number.
   WT_OK, WT_BUFFER_TOO_SMALL: as above. WT_INVALID: the number is 2^62 or more. */
int wt_varint_write(uint64_t value, uint8_t *out, size_t room, size_t *used);

/* The size of the shortest encoding, 1, 2, 4 or 8; or 0 if the number is 2^62 or more. */
size_t wt_varint_size(uint64_t value);

/* ---- Headers of unidirectional streams (RFC 9114, section 6.2) ---- */

enum {
  WT_STREAM_CONTROL = 0x00,
  WT_STREAM_QPACK_ENCODER = 0x02,
  WT_STREAM_QPACK_DECODER = 0x03,
  WT_STREAM_WEBTRANSPORT = 0x54
};

typedef struct wt_stream_header {
  uint64_t type;    /* one of WT_STREAM_.., or one reserved for exercise: 0x21 + 0x1f * n */
  uint64_t session; /* of a WebTransport stream; otherwise 0 */
} wt_stream_header;

/* Reads the header at the start of a stream. After that of a control stream come frames
   (WT_READ_CONTROL), after that of a WebTransport stream the application's bytes, after those of QPACK
   the instructions for the dynamic table, which no call of this part reads, and what comes after a
   reserved one is to be ignored.
   WT_OK: *header is the header, and *consumed its size.
   WT_MORE: there are too few bytes; *consumed is 0.
   WT_ERROR: *error_code is WT_H3_STREAM_CREATION_ERROR for an unknown type, after which the stream alone is no
   longer read, or WT_H3_ID_ERROR for an invalid session ID; *consumed is 0. */
int wt_stream_header_read(const uint8_t *bytes, size_t length, size_t *consumed,
                          wt_stream_header *header, uint64_t *error_code);

/* Writes a header.
   WT_OK, WT_BUFFER_TOO_SMALL: as above. WT_INVALID: the type is unknown, the session of a WebTransport stream is
   not one, or the session of another stream is not 0. */
int wt_stream_header_write(const wt_stream_header *header, uint8_t *out, size_t room, size_t *used);

/* ---- Datagrams (RFC 9297, section 2.1) ---- */

/* Reads a QUIC datagram.
   WT_OK: *session is its session, and the payload is all bytes from *offset on.
   WT_ERROR: *error_code is WT_H3_DATAGRAM_ERROR. */
int wt_datagram_read(const uint8_t *bytes, size_t length, uint64_t *session, size_t *offset,
                     uint64_t *error_code);

/* Writes a datagram.
   WT_OK, WT_BUFFER_TOO_SMALL: as above. WT_INVALID: the number is not that of a session. */
int wt_datagram_write(uint64_t session, const uint8_t *payload, size_t length, uint8_t *out,
                      size_t room, size_t *used);

/* Writes what comes before the payload of a datagram, so that the payload need not be copied. */
int wt_datagram_write_head(uint64_t session, uint8_t *out, size_t room, size_t *used);

/* ---- Frames that are read (RFC 9114, section 7.1) ---- */

enum {
  WT_READ_BI_REMOTE = 0, /* a bidirectional stream that the peer opened, as a server reads requests:
                            DATA, HEADERS, and a WebTransport frame as the first */
  WT_READ_BI_LOCAL = 1,  /* a bidirectional stream that was opened here, as a client reads responses:
                            DATA, HEADERS */
  WT_READ_CONTROL = 2,   /* the peer's control stream, after its header: SETTINGS */
  WT_READ_SESSION = 3    /* the stream of a session, by a reader that begins after the request or the
                            response: DATA, HEADERS. The reader of these can go on instead */
};

enum {
  WT_MAX_FRAME_PAYLOAD = 4096, /* the longest payload that wt_read_frame reads */
  WT_MAX_FRAME_REST = 4111     /* the most bytes that wt_read_frame leaves to be given again */
};

/* Frame-reader state for one stream. Initialise it with wt_reader_new; wt_read_frame updates it. A value
   out of these ranges is rejected with WT_INVALID. */
typedef struct wt_reader {
  uint8_t kind;  /* one of WT_READ_.. */
  uint8_t first; /* 1 if the next frame would be the first, otherwise 0 */
  uint64_t skip_remaining;  /* payload bytes of an unknown frame that are still to be skipped, fewer than 2^62 */
} wt_reader;

/* A frame. Its payload is `length` bytes from bytes[offset] on, of the bytes given to the call that
   found it, and is consumed with it. */
typedef struct wt_frame {
  uint64_t type;    /* one of WT_FRAME_.., or one reserved for exercise: 0x21 + 0x1f * n */
  uint64_t session; /* of a WebTransport frame, which has no payload; otherwise 0 */
  size_t offset;
  size_t length; /* at most WT_MAX_FRAME_PAYLOAD */
} wt_frame;

/* Makes the reader of a stream. WT_INVALID: the kind is none of WT_READ_... */
int wt_reader_new(uint8_t kind, wt_reader *reader);

/* Reads the next frame from the bytes after those that were consumed before. Frames of unknown types are
   skipped, also piece by piece. Those of types reserved for exercise are returned, and are to be ignored
   (RFC 9114, section 7.2.8). Unknown are all types but those of WT_FRAME_.. and the reserved ones, GOAWAY
   among them, and those of HTTP/2, which RFC 9114, section 7.2.8, forbids. Which frame may follow which
   is for the caller to check, as that HEADERS come before DATA, but for a WebTransport frame, which has
   to be the first: a frame that is skipped does not count, and a reserved one does.
   WT_OK: *frame is the next frame. The next call begins after the first *consumed bytes.
   WT_MORE: there is no complete frame. The bytes after the first *consumed, at most WT_MAX_FRAME_REST, are
   to be given again, with more bytes after them.
   WT_ERROR: *error_code is WT_H3_FRAME_UNEXPECTED for a frame that the stream does not allow, WT_H3_FRAME_ERROR
   for a WebTransport frame that is not the first of a stream that the peer opened, WT_H3_ID_ERROR for an
   invalid session ID, or WT_H3_EXCESSIVE_LOAD for a payload above WT_MAX_FRAME_PAYLOAD bytes; *consumed is
   0, and *reader is unchanged.
   WT_INVALID: *reader is not valid, as its comment says. However a stream is cut into pieces, its frames
   and its first fault are the same. After a WebTransport frame all bytes are the application's: do not
   call this for them. */
int wt_read_frame(wt_reader *reader, const uint8_t *bytes, size_t length, size_t *consumed,
                  wt_frame *frame, uint64_t *error_code);

/* Call this when the stream ends, with the bytes that have not been consumed: those after the first
   *consumed of the last WT_MORE, or none.
   WT_OK: the stream may end here. WT_ERROR: a frame has begun; *error_code is WT_H3_FRAME_ERROR. WT_INVALID:
   *reader is not valid. */
int wt_read_end(const wt_reader *reader, const uint8_t *rest, size_t length, uint64_t *error_code);

/* ---- Frames that are written (RFC 9114, section 7) ---- */

enum {
  WT_FRAME_DATA = 0x00,
  WT_FRAME_HEADERS = 0x01,
  WT_FRAME_SETTINGS = 0x04,
  WT_FRAME_WEBTRANSPORT = 0x41
};

/* Writes a frame with a payload: DATA, HEADERS, SETTINGS, or of a type that is reserved for exercise
   (0x21 + 0x1f * n). wt_goaway_write writes GOAWAY. A payload may be longer than those that
   wt_read_frame reads.
   WT_OK, WT_BUFFER_TOO_SMALL: as above. WT_INVALID: the type is another, or the payload has 2^62 bytes. */
int wt_frame_write(uint64_t type, const uint8_t *payload, size_t length, uint8_t *out, size_t room,
                   size_t *used);

/* Writes what comes before the payload of a frame, its type and the length of its payload, so that
   the payload need not be copied. WT_INVALID also if that length is 2^62 or more. */
int wt_frame_write_head(uint64_t type, uint64_t length, uint8_t *out, size_t room, size_t *used);

/* Writes the frame at the start of a bidirectional stream of a session
   (draft-ietf-webtrans-http3-02, section 4.2). All bytes after it are the application's.
   WT_OK, WT_BUFFER_TOO_SMALL: as above. WT_INVALID: the number is not that of a session. */
int wt_session_frame_write(uint64_t session, uint8_t *out, size_t room, size_t *used);

/* ---- Settings (RFC 9114, section 7.2.4) ---- */

/* The settings with a name. A setting of 1 enables what it names, in ENABLE_.. and in H3_DATAGRAM. */
#define WT_SETTING_QPACK_MAX_TABLE_CAPACITY  UINT64_C(0x01) /* RFC 9204, section 5 */
#define WT_SETTING_MAX_FIELD_SECTION_SIZE    UINT64_C(0x06) /* RFC 9114, section 7.2.4.1 */
#define WT_SETTING_QPACK_BLOCKED_STREAMS     UINT64_C(0x07) /* RFC 9204, section 5 */
#define WT_SETTING_ENABLE_CONNECT_PROTOCOL   UINT64_C(0x08) /* RFC 9220, section 3 */
#define WT_SETTING_H3_DATAGRAM               UINT64_C(0x33) /* RFC 9297, section 2.1.1 */
#define WT_SETTING_ENABLE_WEBTRANSPORT       UINT64_C(0x2b603742) /* draft-ietf-webtrans-http3-02, section 3.1 */
#define WT_SETTING_WEBTRANSPORT_MAX_SESSIONS UINT64_C(0xc671706a) /* draft-ietf-webtrans-http3-07 */

typedef struct wt_setting {
  uint64_t id;
  uint64_t value;
} wt_setting;

/* Reads the payload of a SETTINGS frame: all settings in the payload's order. Those with an unknown
   identifier are to be ignored (RFC 9114, section 7.2.4), and so are those reserved for exercise,
   0x21 + 0x1f * n. A value may be any number: whether the setting allows it is for the caller to check.
   It allocates.
   WT_OK: the settings are the first *count. What is after these in `settings` does not change.
   WT_BUFFER_TOO_SMALL: `settings` is too short and did not change; *count is the room that is needed.
   WT_ERROR: *error_code is WT_H3_FRAME_ERROR if the payload is cut, or WT_H3_SETTINGS_ERROR for an identifier
   that HTTP/2 used, or that is repeated and has a name or is reserved for exercise: an unknown one may be
   repeated.
   WT_MEMORY. WT_INVALID: the payload has 2^62 bytes. */
int wt_settings_read(const uint8_t *payload, size_t length, wt_setting *settings, size_t room,
                     size_t *count, uint64_t *error_code);

/* Writes the payload of a SETTINGS frame: the settings in their order. It allocates, but for none.
   WT_OK, WT_BUFFER_TOO_SMALL: as above. WT_INVALID: a number is 2^62 or more, an identifier is one that HTTP/2
   used, or one that has a name or is reserved for exercise is repeated. WT_MEMORY, only if it would not be
   WT_INVALID. As it is implemented, n settings take at most n (n - 1) / 2 comparisons of identifiers. */
int wt_settings_write(const wt_setting *settings, size_t count, uint8_t *out, size_t room,
                      size_t *used);

/* Writes the name of a setting in ASCII, without a final zero, as SETTINGS_H3_DATAGRAM; or its number,
   as 0x21, if it is reserved for exercise. No name, here and below, has more than 64 bytes. It
   allocates.
   WT_OK, WT_BUFFER_TOO_SMALL: as above. WT_INVALID: the setting is unknown. WT_MEMORY. */
int wt_setting_name(uint64_t id, char *out, size_t room, size_t *used);

/* ---- Field sections of QPACK, with the static table only (RFC 9204, section 4.5) ---- */

/* A field line: where its name and its value are in an array of bytes, `texts`. */
typedef struct wt_field {
  size_t name_offset, name_length, value_offset, value_length;
} wt_field;

/* Reads a field section, the payload of a HEADERS frame: its lines in their order, with repeated
   names, as bytes that need not be UTF-8. It allocates for Huffman text.
   WT_OK: the lines are the first *count, and their texts the first *used bytes of `texts`. What is after
   these does not change.
   WT_BUFFER_TOO_SMALL: an array is too short; *count and *used are the room that is needed.
   WT_ERROR: *error_code is WT_QPACK_DECOMPRESSION_FAILED. WT_MEMORY.
   If it does not return WT_OK, the contents of both arrays are unspecified. */
int wt_fields_read(const uint8_t *section, size_t length, wt_field *fields, size_t fields_room,
                   uint8_t *texts, size_t texts_room, size_t *count, size_t *used, uint64_t *error_code);

/* Writes a field section: the fields in their order, in as few bytes as is possible with the static table
   only. Those whose values an attacker could guess, as authorization and short cookies, are never indexed
   (RFC 9204, section 7.1.3). Names and values are written as they are, pseudo-header fields too: that they are allowed in a message
   (RFC 9114, sections 4.2 and 4.3) is for the caller to check. It allocates.
   WT_OK, WT_BUFFER_TOO_SMALL: as above. WT_INVALID: a field is not within the texts or is not UTF-8. WT_MEMORY. */
int wt_fields_write(const wt_field *fields, size_t count, const uint8_t *texts, size_t texts_length,
                    uint8_t *out, size_t room, size_t *used);

/* ---- Sessions (RFC 9220, section 3; WebTransport over HTTP/3) ---- */

/* Writes the HEADERS frame of the request for the session at a URL: the pseudo-header fields, and then
   these fields in their order, with repeated names. The URL is read as the URL Standard describes: its
   host is sent in lower case, port 443 and a fragment are not sent. A user name and a password in it are
   sent in :authority, which RFC 9114, section 4.3.1, forbids. A value is any bytes, as RFC 9110, section
   5.5, allows them. It allocates.
   WT_OK, WT_BUFFER_TOO_SMALL: as above. WT_INVALID: the URL is not one, or its scheme is not https; one of 16 MiB or
   more may be refused too. Or a field is not within the texts; its name is empty, starts with a colon
   (as a pseudo-header field), has an upper-case letter or is no token; or its value has a control
   character other than a tab, such as CR, LF or NUL, or starts or ends with a space or a tab.
   WT_MEMORY. */
int wt_request_write(const uint8_t *url, size_t url_length, const wt_field *fields, size_t count,
                     const uint8_t *texts, size_t texts_length, uint8_t *out, size_t room,
                     size_t *used);

/* Reads the request in a field section, the payload of a HEADERS frame, and writes its authority and then
   its path to `out`. wt_fields_read reads all of its fields, the pseudo-header fields too. Names and
   values are bytes, and need not be UTF-8. Of a repeated name, that of a pseudo-header field too, the
   last value counts. It allocates.
   WT_OK, WT_BUFFER_TOO_SMALL: as above, and *authority is the size of the authority.
   WT_ERROR: *error_code is WT_QPACK_DECOMPRESSION_FAILED for a section with a fault, or WT_H3_MESSAGE_ERROR for
   one that is not a request. WT_MEMORY. */
int wt_request_read(const uint8_t *section, size_t length, uint8_t *out, size_t room,
                    size_t *authority, size_t *used, uint64_t *error_code);

/* Why a field section is not the request for a session. The checks run in this order (RFC 9114, section
   4.3.1; RFC 9220, section 3). */
enum {
  WT_REQUEST_OK = 0,                        /* no fault: they are those of a request */
  WT_REQUEST_MISSING_METHOD = 1,            /* no :method */
  WT_REQUEST_METHOD_NOT_CONNECT = 2,        /* :method is not CONNECT */
  WT_REQUEST_MISSING_SCHEME = 3,            /* no :scheme */
  WT_REQUEST_SCHEME_NOT_HTTPS = 4,          /* :scheme is not https */
  WT_REQUEST_MISSING_PROTOCOL = 5,          /* no :protocol */
  WT_REQUEST_PROTOCOL_NOT_WEBTRANSPORT = 6, /* :protocol is not webtransport */
  WT_REQUEST_MISSING_AUTHORITY = 7,         /* no :authority */
  WT_REQUEST_MISSING_PATH = 8               /* no :path */
};

/* Finds the first fault of a request, so that the WT_H3_MESSAGE_ERROR of wt_request_read can be
   explained. It allocates.
   WT_OK: *fault is one of WT_REQUEST_...
   WT_ERROR: *error_code is WT_QPACK_DECOMPRESSION_FAILED for a section with a fault. WT_MEMORY. Then *fault
   does not change. */
int wt_request_check(const uint8_t *section, size_t length, int *fault, uint64_t *error_code);

/* Writes the name of a fault in ASCII, without a final zero, as MissingMethod for
   WT_REQUEST_MISSING_METHOD.
   WT_OK, WT_BUFFER_TOO_SMALL: as above. WT_INVALID: no fault has this number; WT_REQUEST_OK is none. */
int wt_request_fault_name(int fault, char *out, size_t room, size_t *used);

/* Writes the HEADERS frame of the response with a status: :status, and then these fields in their order,
   with repeated names, such as set-cookie. It allocates.
   WT_OK, WT_BUFFER_TOO_SMALL: as above. WT_INVALID: the status is not from 100 to 599, or for a field that
   wt_request_write rejects. WT_MEMORY. */
int wt_response_write(uint32_t status, const wt_field *fields, size_t count, const uint8_t *texts,
                      size_t texts_length, uint8_t *out, size_t room, size_t *used);

/* Reads the response in a field section, the payload of a HEADERS frame. Names and values need not be
   UTF-8. It allocates.
   WT_OK: *status is its status.
   WT_ERROR: *error_code is WT_QPACK_DECOMPRESSION_FAILED for a section with a fault, or WT_H3_MESSAGE_ERROR for
   one without a :status of three digits from 100 to 599. WT_MEMORY. */
int wt_response_read(const uint8_t *section, size_t length, uint16_t *status, uint64_t *error_code);

/* ---- Capsules (RFC 9297, section 3.2) ---- */

enum {
  WT_CAPSULE_CLOSE_SESSION = 0x2843,
  WT_MAX_CAPSULE_VALUE = 1028, /* the longest value that wt_capsule_read reads */
  WT_MAX_CAPSULE_REST = 1043,  /* the most bytes that wt_capsule_read leaves to be given again */
  WT_MAX_CLOSE_REASON = 1024   /* the longest reason that wt_close_write takes */
};

/* Capsule-reader state for one stream. It begins as {0}; every value is valid. */
typedef struct wt_capsule_reader {
  uint64_t skip_remaining; /* bytes of an unknown capsule's value that are still to be skipped */
} wt_capsule_reader;

/* A capsule. Its value is in the bytes that were read: `length` bytes from `offset` on. */
typedef struct wt_capsule {
  uint64_t type; /* WT_CAPSULE_CLOSE_SESSION */
  size_t offset;
  size_t length; /* at most WT_MAX_CAPSULE_VALUE */
} wt_capsule;

/* Reads the next capsule from the payloads of the DATA frames of a session's stream, joined: from the
   bytes after those that were consumed before. Capsules of unknown types are skipped, also piece by
   piece, whatever their length.
   WT_OK: *capsule is the next capsule. The next call begins after the first *consumed bytes.
   WT_MORE: there is no complete capsule. The bytes after the first *consumed, at most WT_MAX_CAPSULE_REST,
   are to be given again, with those of the next payload after them.
   WT_ERROR: *error_code is WT_H3_DATAGRAM_ERROR for a value above WT_MAX_CAPSULE_VALUE bytes; *consumed is 0, and
   *reader is unchanged. However the bytes are cut into payloads and pieces, the capsules and the fault are the
   same. */
int wt_capsule_read(wt_capsule_reader *reader, const uint8_t *bytes, size_t length, size_t *consumed,
                    wt_capsule *capsule, uint64_t *error_code);

/* Call this when the stream ends, with the bytes that have not been consumed after WT_MORE.
   WT_OK: the stream may end here. WT_ERROR: a capsule has begun; *error_code is WT_H3_MESSAGE_ERROR (RFC 9297,
   section 3.3). */
int wt_capsule_end(const wt_capsule_reader *reader, const uint8_t *rest, size_t length,
                   uint64_t *error_code);

/* ---- The end of a session (WebTransport over HTTP/3, "Session Termination") ---- */

/* Reads the value of a capsule of type WT_CAPSULE_CLOSE_SESSION.
   WT_OK: *app_error_code is the application's code, and the reason is all bytes from the fifth on.
   WT_ERROR: *error_code is WT_H3_DATAGRAM_ERROR for a value of fewer than 4 or more than WT_MAX_CAPSULE_VALUE
   bytes, or a reason that is not UTF-8. */
int wt_close_read(const uint8_t *value, size_t length, uint32_t *app_error_code, uint64_t *error_code);

/* Writes the capsule that closes a session: type, length and value. It is the last of the payloads of
   DATA frames on the session's stream. It allocates.
   WT_OK, WT_BUFFER_TOO_SMALL: as above. WT_INVALID: the reason is not UTF-8 or has more than WT_MAX_CLOSE_REASON
   bytes. WT_MEMORY. */
int wt_close_write(uint32_t app_error_code, const uint8_t *reason, size_t length, uint8_t *out, size_t room,
                   size_t *used);

/* ---- Names and scopes of error codes (RFC 9114, section 8) ---- */

/* Writes the name of a registered code in ASCII, without a final zero, such as H3_FRAME_UNEXPECTED for
   WT_H3_FRAME_UNEXPECTED. Numbers reserved for exercise have no name.
   WT_OK, WT_BUFFER_TOO_SMALL: as above. WT_INVALID: no code is registered with this number; it is to be treated as
   WT_H3_NO_ERROR. */
int wt_code_name(uint64_t code, char *out, size_t room, size_t *used);

enum { WT_SCOPE_STREAM = 0, WT_SCOPE_CONNECTION = 1, WT_SCOPE_EITHER = 2 };

/* What a registered code ends, or WT_INVALID. WT_SCOPE_EITHER: the rule that is violated says which. */
int wt_code_scope(uint64_t code);

/* The HTTP/3 error code of an application's error code (WebTransport over HTTP/3, "Resetting Data
   Streams"), and back. WT_INVALID: no application's error code has this HTTP/3 error code. */
uint64_t wt_application_code_to_http3(uint32_t code);
int wt_application_code_from_http3(uint64_t number, uint32_t *code);

#ifdef __cplusplus
}
#endif

#include "wtransport_connection.h" /* connections: what is next on each stream */
#include "wtransport_sending.h"    /* what may be sent on them */
#endif
