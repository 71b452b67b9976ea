"""c/include/wtransport.h and its parts for ctypes: constants, structs, and arguments of its calls.

    library = load("c/out/libwtransport.so")

The names are those of the header without `WT_` or `wt_`. c/python/test.py compares constants and
structs with the header, and sees that each call is here.
"""
import ctypes
from ctypes import POINTER, c_char_p, c_int, c_size_t, c_uint8, c_uint16, c_uint32, c_uint64

OK, MORE, ERROR, BUFFER_TOO_SMALL, INVALID, MEMORY = 0, 1, -1, -2, -3, -4
UNSUPPORTED, REFUSED = -5, -6

VERSION, VERSION_NUMBER = "0.8.0", 0x000800

# Error codes (RFC 9114, section 8.1; RFC 9297, section 5.2; RFC 9204, section 6; WebTransport).
H3_DATAGRAM_ERROR = 0x33
H3_NO_ERROR = 0x0100
H3_GENERAL_PROTOCOL_ERROR = 0x0101
H3_INTERNAL_ERROR = 0x0102
H3_STREAM_CREATION_ERROR = 0x0103
H3_CLOSED_CRITICAL_STREAM = 0x0104
H3_FRAME_UNEXPECTED = 0x0105
H3_FRAME_ERROR = 0x0106
H3_EXCESSIVE_LOAD = 0x0107
H3_ID_ERROR = 0x0108
H3_SETTINGS_ERROR = 0x0109
H3_MISSING_SETTINGS = 0x010A
H3_REQUEST_REJECTED = 0x010B
H3_REQUEST_CANCELLED = 0x010C
H3_REQUEST_INCOMPLETE = 0x010D
H3_MESSAGE_ERROR = 0x010E
H3_CONNECT_ERROR = 0x010F
H3_VERSION_FALLBACK = 0x0110
QPACK_DECOMPRESSION_FAILED = 0x0200
QPACK_ENCODER_STREAM_ERROR = 0x0201
QPACK_DECODER_STREAM_ERROR = 0x0202
WEBTRANSPORT_BUFFERED_STREAM_REJECTED = 0x3994BD84
WEBTRANSPORT_SESSION_GONE = 0x170D7B68
WT_FLOW_CONTROL_ERROR = 0x045D4487
WT_ALPN_ERROR = 0x0817B3DD
WT_REQUIREMENTS_NOT_MET = 0x212C0D48

SCOPE_STREAM, SCOPE_CONNECTION, SCOPE_EITHER = 0, 1, 2

STREAM_CONTROL = 0x00
STREAM_QPACK_ENCODER = 0x02
STREAM_QPACK_DECODER = 0x03
STREAM_WEBTRANSPORT = 0x54

READ_BI_REMOTE, READ_BI_LOCAL, READ_CONTROL, READ_SESSION = 0, 1, 2, 3
MAX_FRAME_PAYLOAD, MAX_FRAME_REST = 4096, 4111

FRAME_DATA = 0x00
FRAME_HEADERS = 0x01
FRAME_SETTINGS = 0x04
FRAME_WEBTRANSPORT = 0x41

SETTING_QPACK_MAX_TABLE_CAPACITY = 0x01
SETTING_MAX_FIELD_SECTION_SIZE = 0x06
SETTING_QPACK_BLOCKED_STREAMS = 0x07
SETTING_ENABLE_CONNECT_PROTOCOL = 0x08
SETTING_H3_DATAGRAM = 0x33
SETTING_ENABLE_WEBTRANSPORT = 0x2B603742
SETTING_WEBTRANSPORT_MAX_SESSIONS = 0xC671706A

REQUEST_OK = 0
REQUEST_MISSING_METHOD, REQUEST_METHOD_NOT_CONNECT = 1, 2
REQUEST_MISSING_SCHEME, REQUEST_SCHEME_NOT_HTTPS = 3, 4
REQUEST_MISSING_PROTOCOL, REQUEST_PROTOCOL_NOT_WEBTRANSPORT = 5, 6
REQUEST_MISSING_AUTHORITY, REQUEST_MISSING_PATH = 7, 8

CAPSULE_CLOSE_SESSION = 0x2843
MAX_CAPSULE_VALUE, MAX_CAPSULE_REST, MAX_CLOSE_REASON = 1028, 1043, 1024

ABI = 1
NO_GOAWAY = 0xFFFFFFFFFFFFFFFF
SIDE_CLIENT, SIDE_SERVER = 0, 1
ASKED_OTHER, ASKED_HEAD, ASKED_CONNECT, ASKED_SESSION = 0, 1, 2, 3

EVENT_MORE, EVENT_WAITS, EVENT_OPENED, EVENT_JOINS, EVENT_JOINED = 0, 1, 2, 3, 4
EVENT_SETTINGS, EVENT_GOAWAY, EVENT_FRAME, EVENT_HEADERS = 5, 6, 7, 8
EVENT_SESSION_REQUESTED, EVENT_SESSION_READY, EVENT_REJECTED = 9, 10, 11
EVENT_SESSION_CLOSED, EVENT_SESSION_LOST, EVENT_DATAGRAM, EVENT_DRAINING = 12, 13, 14, 15
EVENT_SKIPPED, EVENT_DATA, EVENT_STREAM_DATA, EVENT_TOO_LARGE = 16, 17, 18, 19
EVENT_MALFORMED, EVENT_STREAM_ERROR, EVENT_CONNECTION_ERROR = 20, 21, 22
EVENT_RESET, EVENT_END, EVENT_INSERTED = 23, 24, 26

PURPOSE_CONTROL, PURPOSE_ENCODER, PURPOSE_DECODER = 0, 2, 3
PURPOSE_SESSION, PURPOSE_MESSAGE, PURPOSE_IGNORED = 4, 6, 8
HEADERS_REQUEST, HEADERS_INTERIM, HEADERS_RESPONSE, HEADERS_TRAILERS = 0, 1, 2, 3
WAITS_NOTHING, WAITS_SESSION, WAITS_SETTINGS, WAITS_ANSWER, WAITS_TABLE = 0, 1, 2, 3, 4
KNOWN_COMING, KNOWN_OPEN, KNOWN_OVER, KNOWN_REFUSED, KNOWN_OTHER = 0, 1, 2, 3, 4
KNOWN_IMPOSSIBLE = 5
DATAGRAM_DELIVER, DATAGRAM_EARLY, DATAGRAM_DROP, DATAGRAM_END_STREAM = 0, 1, 2, 3

RULE_INVALID_NAME, RULE_INVALID_VALUE, RULE_CONNECTION_FIELD, RULE_INVALID_TE = 1, 2, 3, 4
RULE_UNKNOWN_PSEUDO_HEADER, RULE_LATE_PSEUDO_HEADER, RULE_REPEATED_PSEUDO_HEADER = 5, 6, 7
RULE_INVALID_CONTENT_LENGTH, RULE_MISSING_METHOD, RULE_INVALID_METHOD = 8, 9, 10
RULE_MISSING_SCHEME, RULE_INVALID_SCHEME, RULE_MISSING_PATH, RULE_INVALID_PATH = 11, 12, 13, 14
RULE_MISSING_AUTHORITY, RULE_INVALID_AUTHORITY, RULE_CONNECT_WITH_TARGET = 15, 16, 17
RULE_UNEXPECTED_PROTOCOL, RULE_INVALID_PROTOCOL, RULE_CONTENT_FIELD = 18, 19, 20
RULE_MISSING_STATUS, RULE_INVALID_STATUS, RULE_UNEXPECTED_STATUS = 21, 22, 23
RULE_MISSING_HEAD, RULE_CONTENT_TOO_LONG, RULE_CONTENT_TOO_SHORT = 24, 25, 26

SEND_UNEXPECTED, SEND_DATA_MISSING, SEND_DATA_EXCEEDED, SEND_EMPTY_DATA = 64, 65, 66, 67
SEND_TOO_LARGE, SEND_TOO_MANY_INTERIM, SEND_INVALID_ID, SEND_ID_RISES = 68, 69, 70, 71
SEND_UNSUPPORTED = 72


class StreamHeader(ctypes.Structure):
    _fields_ = [("type", c_uint64), ("session", c_uint64)]


class Reader(ctypes.Structure):
    _fields_ = [("kind", c_uint8), ("first", c_uint8), ("skip_remaining", c_uint64)]


class Frame(ctypes.Structure):
    _fields_ = [
        ("type", c_uint64),
        ("session", c_uint64),
        ("offset", c_size_t),
        ("length", c_size_t),
    ]


class Setting(ctypes.Structure):
    _fields_ = [("id", c_uint64), ("value", c_uint64)]


class Field(ctypes.Structure):
    _fields_ = [
        ("name_offset", c_size_t),
        ("name_length", c_size_t),
        ("value_offset", c_size_t),
        ("value_length", c_size_t),
    ]


class CapsuleReader(ctypes.Structure):
    _fields_ = [("skip_remaining", c_uint64)]


class Capsule(ctypes.Structure):
    _fields_ = [("type", c_uint64), ("offset", c_size_t), ("length", c_size_t)]


class Endpoint(ctypes.Structure):
    _fields_ = [
        ("side", c_uint8),
        ("webtransport", c_uint8),
        ("datagrams", c_uint8),
        ("extended", c_uint8),
        ("max_section", c_uint32),
        ("max_fields", c_uint64),
        ("max_datagram", c_uint64),
        ("reserved", c_uint64 * 5),
    ]


class Connection(ctypes.Structure):
    _fields_ = [("words", c_uint64 * 32)]


class Stream(ctypes.Structure):
    _fields_ = [("words", c_uint64 * 26)]


class Event(ctypes.Structure):
    _fields_ = [
        ("kind", c_uint32),
        ("detail", c_uint32),
        ("number", c_uint64),
        ("consumed", c_size_t),
        ("offset", c_size_t),
        ("length", c_size_t),
        ("fields", c_size_t),
        ("used", c_size_t),
        ("held", c_size_t),
        ("reserved", c_uint64 * 4),
    ]


class PeerSettings(ctypes.Structure):
    _fields_ = [
        ("qpack_max_table_capacity", c_uint64),
        ("max_field_section_size", c_uint64),
        ("qpack_blocked_streams", c_uint64),
        ("webtransport_max_sessions", c_uint64),
        ("wt_max_sessions", c_uint64),
        ("enable_connect_protocol", c_uint8),
        ("h3_datagram", c_uint8),
        ("enable_webtransport", c_uint8),
        ("came", c_uint8),
        ("reserved_half", c_uint32),
        ("reserved", c_uint64 * 2),
    ]


class Hold(ctypes.Structure):
    _fields_ = [
        ("start", c_size_t),
        ("end", c_size_t),
        ("taken", c_size_t),
        ("fin", c_uint8),
        ("in_array", c_uint8),
        ("reserved", c_uint8 * 6),
    ]


class RequestBudget(ctypes.Structure):
    _fields_ = [("excess", c_uint64), ("answers", c_uint64), ("resets", c_uint64)]


class Sending(ctypes.Structure):
    _fields_ = [("words", c_uint64 * 12)]


class Control(ctypes.Structure):
    _fields_ = [("words", c_uint64 * 8)]


class Policy(ctypes.Structure):
    _fields_ = [("largest", c_uint64), ("reserved", c_uint64), ("unacknowledged", c_uint64)]


def encoder_size(capacity, unacknowledged):
    """WT_ENCODER_SIZE."""
    return 107 + capacity + 24 * unacknowledged


# The structs of the header by their names there.
STRUCTS = {
    "wt_stream_header": StreamHeader,
    "wt_reader": Reader,
    "wt_frame": Frame,
    "wt_setting": Setting,
    "wt_field": Field,
    "wt_capsule_reader": CapsuleReader,
    "wt_capsule": Capsule,
    "wt_endpoint": Endpoint,
    "wt_connection": Connection,
    "wt_stream": Stream,
    "wt_event": Event,
    "wt_peer_settings": PeerSettings,
    "wt_hold": Hold,
    "wt_request_budget": RequestBudget,
    "wt_sending": Sending,
    "wt_control": Control,
    "wt_policy": Policy,
}

SIZE, U32, U64 = POINTER(c_size_t), POINTER(c_uint32), POINTER(c_uint64)
# Bytes and their length, and an array and its length.
BYTES, FIELDS, SETTINGS = (
    [c_char_p, c_size_t],
    [POINTER(Field), c_size_t],
    [POINTER(Setting), c_size_t],
)
# What a call writes: the bytes, their room, and how many are used.
OUT = [c_char_p, c_size_t, SIZE]

CONNECTION, STREAM, EVENT = POINTER(Connection), POINTER(Stream), POINTER(Event)
PEER, HOLD, BUDGET = POINTER(PeerSettings), POINTER(Hold), POINTER(RequestBudget)
SENDING, CONTROL = POINTER(Sending), POINTER(Control)
# What a call that sends writes, and why it does not.
SENDS = [*OUT, U32]
# The message and the fields of a call that writes them with an encoder.
ENCODES = [SENDING, *BYTES, *FIELDS, *BYTES]
# The memory and the input of a call that reads a stream, and what it gives.
RECEIVES = [CONNECTION, STREAM, *BYTES, *BYTES]
GIVES = [*BYTES, c_uint8, EVENT, *FIELDS, *BYTES]

# The arguments of each call.
ARGUMENTS = {
    "wt_version": [],
    "wt_varint_read": [*BYTES, U64, SIZE],
    "wt_varint_write": [c_uint64, *OUT],
    "wt_varint_size": [c_uint64],
    "wt_stream_header_read": [*BYTES, SIZE, POINTER(StreamHeader), U64],
    "wt_stream_header_write": [POINTER(StreamHeader), *OUT],
    "wt_datagram_read": [*BYTES, U64, SIZE, U64],
    "wt_datagram_write": [c_uint64, *BYTES, *OUT],
    "wt_datagram_write_head": [c_uint64, *OUT],
    "wt_reader_new": [c_uint8, POINTER(Reader)],
    "wt_read_frame": [POINTER(Reader), *BYTES, SIZE, POINTER(Frame), U64],
    "wt_read_end": [POINTER(Reader), *BYTES, U64],
    "wt_frame_write": [c_uint64, *BYTES, *OUT],
    "wt_frame_write_head": [c_uint64, c_uint64, *OUT],
    "wt_session_frame_write": [c_uint64, *OUT],
    "wt_settings_read": [*BYTES, *SETTINGS, SIZE, U64],
    "wt_settings_write": [*SETTINGS, *OUT],
    "wt_setting_name": [c_uint64, *OUT],
    "wt_fields_read": [*BYTES, *FIELDS, *BYTES, SIZE, SIZE, U64],
    "wt_fields_write": [*FIELDS, *BYTES, *OUT],
    "wt_request_write": [*BYTES, *FIELDS, *BYTES, *OUT],
    "wt_request_read": [*BYTES, c_char_p, c_size_t, SIZE, SIZE, U64],
    "wt_request_check": [*BYTES, POINTER(c_int), U64],
    "wt_request_fault_name": [c_int, *OUT],
    "wt_response_write": [c_uint32, *FIELDS, *BYTES, *OUT],
    "wt_response_read": [*BYTES, POINTER(c_uint16), U64],
    "wt_capsule_read": [POINTER(CapsuleReader), *BYTES, SIZE, POINTER(Capsule), U64],
    "wt_capsule_end": [POINTER(CapsuleReader), *BYTES, U64],
    "wt_close_read": [*BYTES, U32, U64],
    "wt_close_write": [c_uint32, *BYTES, *OUT],
    "wt_connection_new": [c_uint32, POINTER(Endpoint), CONNECTION],
    "wt_connection_allows_sessions": [CONNECTION],
    "wt_connection_unprocessed": [CONNECTION, c_uint64],
    "wt_connection_settings": [CONNECTION, PEER],
    "wt_connection_resuming": [c_uint32, POINTER(Endpoint), PEER, CONNECTION],
    "wt_early_data_refused": [CONNECTION],
    "wt_stream_accept": [CONNECTION, c_uint64, STREAM],
    "wt_stream_of_request": [CONNECTION, c_uint32, STREAM],
    "wt_stream_of_session": [c_uint64, STREAM],
    "wt_receive": [*RECEIVES, *GIVES],
    "wt_receive_pushed": [*RECEIVES, HOLD, *BYTES, *GIVES],
    "wt_stream_answer": [STREAM, c_uint32],
    "wt_session_known": [CONNECTION, c_uint64, STREAM, c_size_t, U32],
    "wt_stream_join": [CONNECTION, STREAM, c_uint32, EVENT],
    "wt_stream_waits": [STREAM, U32, U64],
    "wt_stream_belongs": [STREAM, U32, U64],
    "wt_stream_reset": [CONNECTION, STREAM, EVENT],
    "wt_stream_stop": [CONNECTION, STREAM, EVENT],
    "wt_stream_abandon": [CONNECTION, STREAM, EVENT],
    "wt_stream_overflow": [CONNECTION, STREAM, EVENT],
    "wt_stopped": [CONNECTION, c_uint32, U64],
    "wt_datagram_receive": [CONNECTION, *BYTES, EVENT],
    "wt_datagram_use": [c_uint32],
    "wt_table_size": [c_uint64],
    "wt_table_new": [c_uint64, *BYTES],
    "wt_table_insert_count": [*BYTES, U64],
    "wt_table_acknowledge": [*BYTES, c_uint64, *OUT],
    "wt_table_increment": [*BYTES, *OUT],
    "wt_table_cancel": [*BYTES, c_uint64, *OUT],
    "wt_too_many_blocked": [CONNECTION, EVENT],
    "wt_goaway_write": [c_uint8, c_uint64, U64, *OUT],
    "wt_request_answered": [BUDGET],
    "wt_request_reset": [BUDGET, U64],
    "wt_send_reason_name": [c_uint32, *OUT],
    "wt_control_new": [CONNECTION, CONTROL],
    "wt_control_settings": [CONTROL, *SETTINGS, *SENDS],
    "wt_control_goaway": [CONTROL, c_uint64, *SENDS],
    "wt_sending_request": [CONNECTION, c_uint64, SENDING, U32],
    "wt_sending_response": [CONNECTION, c_uint64, c_uint32, SENDING, U32],
    "wt_sending_headers": [SENDING, *FIELDS, *BYTES, *SENDS],
    "wt_sending_data": [SENDING, c_uint64, *SENDS],
    "wt_sending_sent": [SENDING, c_uint64, U32],
    "wt_sending_owed": [SENDING, U64],
    "wt_sending_trailers": [SENDING, *FIELDS, *BYTES, *SENDS],
    "wt_sending_finish": [SENDING, U32],
    "wt_sending_connected": [SENDING, U32],
    "wt_sending_unidirectional": [SENDING, *SENDS],
    "wt_sending_bidirectional": [SENDING, *SENDS],
    "wt_sending_datagram": [SENDING, *SENDS],
    "wt_sending_drain": [SENDING, *SENDS],
    "wt_sending_close": [SENDING, c_uint32, *BYTES, *SENDS],
    "wt_encoder_new": [POINTER(Policy), *BYTES],
    "wt_encoder_limits": [*BYTES, c_uint64, c_uint64, *OUT],
    "wt_encoder_receive": [*BYTES, *BYTES, U64],
    "wt_encoder_unacknowledged": [*BYTES, U64],
    "wt_encoder_take_back": [*BYTES, c_uint64],
    "wt_sending_headers_with": [*ENCODES, *OUT, *SENDS],
    "wt_sending_trailers_with": [*ENCODES, *OUT, *SENDS],
    "wt_code_name": [c_uint64, *OUT],
    "wt_code_scope": [c_uint64],
    "wt_application_code_to_http3": [c_uint32],
    "wt_application_code_from_http3": [c_uint64, U32],
}
# What a call returns that does not return an int.
RESULTS = {
    "wt_version": c_uint32,
    "wt_varint_size": c_size_t,
    "wt_table_size": c_size_t,
    "wt_application_code_to_http3": c_uint64,
}


def load(path):
    """Returns the shared library at a path, with its calls declared."""
    library = ctypes.CDLL(path)
    for name, arguments in ARGUMENTS.items():
        call = getattr(library, name)
        call.argtypes, call.restype = arguments, RESULTS.get(name, c_int)
    return library
