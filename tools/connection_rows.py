"""Wrong inputs, and inputs that look wrong, by the rule that each violates or keeps.

The codes are those of RFC 9114 and of draft-ietf-webtrans-http3-02; a section is one of RFC 9114.
What field sections contain is judged in session_rows.py: those here are valid. The own settings
allow no dynamic table of QPACK.
"""

from dataclasses import dataclass

STREAM_CREATION, CLOSED_CRITICAL, UNEXPECTED, FRAME, LOAD = 0x103, 0x104, 0x105, 0x106, 0x107
ID, WRONG_SETTINGS, MISSING_SETTINGS, INCOMPLETE, MESSAGE = 0x108, 0x109, 0x10A, 0x10D, 0x10E
ENCODER, DECODER = 0x201, 0x202
SESSION_GONE, REJECTED = 0x170D7B68, 0x3994BD84
# Errors of a stream; all others end the connection.
OF_STREAM = {INCOMPLETE, MESSAGE, SESSION_GONE, REJECTED}
CONTROL, OTHER, REQUEST = 2, 6, 0


def number(value, size=0):
    """Returns a number, in its shortest form or in so many bytes."""
    size = size or next(s for s in (1, 2, 4, 8) if value < 1 << (8 * s - 2))
    return (value | {1: 0, 2: 1, 4: 2, 8: 3}[size] << (8 * size - 2)).to_bytes(size, "big")


def frame(kind, payload=b""):
    return number(kind) + number(len(payload)) + payload


# A request, which stands for the sections after it too: those of a response (interim ones, as many
# as a row says, and the final one) and trailers (RFC 9204, section 4.5 and appendix A).
HEADERS = frame(0x01, b"\0\0\xd1\xd7\x50\x01a\xc1")
INTERIM, RESPONSE, TRAILERS = (
    frame(0x01, b"\0\0" + line)
    for line in (b"\xd8", b"\xd9", b"\x23abc\x01x")
)
SETTINGS = b"\0" + frame(0x04)


def with_sections(data, is_response, interims):
    """Returns the bytes of a stream, of which each section is what it is by its place."""
    first = [INTERIM] * interims + [RESPONSE] if is_response else [HEADERS]
    parts = data.split(HEADERS)
    sections = [*first, *[TRAILERS] * len(parts)]
    return b"".join(part + section for part, section in zip(parts[:-1], sections)) + parts[-1]


@dataclass
class Row:
    """The bytes of a stream, whether it ends, and the code of its error, or None. The end that
    reads is a server with WebTransport, unless `client` or `plain` say otherwise. `before` is a
    line of the script, or several, that come first; `after` comes last. The error ends the stream
    alone if its code is one of streams, or if `of_stream` says so."""

    shows: str
    stream: int
    data: bytes
    code: int = None
    end: bool = False
    client: bool = False
    plain: bool = False
    before: str = ""
    after: str = ""
    of_stream: bool = False

    def __post_init__(self):
        told = [int(line.split()[2]) for line in self.before.splitlines() if "interims" in line]
        self.data = with_sections(self.data, self.client, told[0] if told else 0)

    def faults(self):
        """Returns the errors: the code of each, and what it ends."""
        scope = "stream" if self.of_stream or self.code in OF_STREAM else "connection"
        return [(self.code, scope)] if self.code is not None else []


def control(*frames):
    return SETTINGS + b"".join(frames)


def request(*frames):
    return HEADERS + b"".join(frames)


def settings(*pairs):
    return b"\0" + frame(0x04, b"".join(number(name) + number(value) for name, value in pairs))


def response(shows, *frames, told, code=None):
    """Returns the row of a response that begins with HEADERS, and ends. So many of its sections are
    those of interim ones."""
    before, of_stream = f"request 0\ninterims 0 {told}", code == LOAD and told > 64
    data = request(*frames)
    return Row(shows, 0, data, code, True, True, before=before, of_stream=of_stream)


HTTP2 = (0x02, 0x06, 0x08, 0x09)
# A line with a value of 4095 bytes.
LONG_LINE = b"\x23abc\x7f\x80\x1f" + b"x" * 4095
ROWS = [
    # Streams (6.1 to 6.2.3).
    Row("a second control stream (6.2.1)", OTHER, SETTINGS, STREAM_CREATION, before="bytes 2 00"),
    Row("a second encoder stream", OTHER, b"\x02", STREAM_CREATION, before="bytes 2 02"),
    Row("a second decoder stream", OTHER, b"\x03", STREAM_CREATION, before="bytes 2 03"),
    Row("a control stream that ends (6.2.1)", CONTROL, SETTINGS, CLOSED_CRITICAL, end=True),
    Row("one that ends within a frame", CONTROL, control(b"\x07"), CLOSED_CRITICAL, end=True),
    Row("one that is reset", CONTROL, SETTINGS, CLOSED_CRITICAL, after="reset 2"),
    Row("an encoder stream that ends", OTHER, b"\x02", CLOSED_CRITICAL, end=True),
    Row("a decoder stream that ends", OTHER, b"\x03", CLOSED_CRITICAL, end=True),
    Row("an encoder stream that is reset", OTHER, b"\x02", CLOSED_CRITICAL, after="reset 6"),
    Row("a stream that ends before its type (6.2)", OTHER, b"\x40", end=True),
    Row("a stream without bytes (6.2)", OTHER, b"", end=True),
    Row("a stream that is reset before its type (6.2)", OTHER, b"\x40", after="reset 6"),
    Row("an end before the session of 0x54", OTHER, b"\x40\x54", end=True),
    Row("an unknown type (6.2)", OTHER, b"\x44\x55abc", end=True),
    Row("a reserved type (6.2.3)", OTHER, number(0x1F * 7 + 0x21) + b"abc", end=True),
    Row("an unknown type of one byte (6.2)", OTHER, b"\x1fx"),
    Row("a push stream to a server (6.2.2)", OTHER, b"\x01\0", STREAM_CREATION),
    Row("a push stream to a client (4.6)", 7, b"\x01\0", ID, client=True),
    Row("a stream of a server (6.1)", 1, b"\x40\x41\0", STREAM_CREATION, client=True, plain=True),
    Row("a request of a server (6.1)", 1, HEADERS, STREAM_CREATION, client=True),
    *(
        Row(f"a server's {shown}", 1, data, STREAM_CREATION, client=True, plain=True, **how)
        for shown, data, how in (
            ("stream by part of a number (6.1)", b"\x80", {}),
            ("stream by a byte (6.1)", b"\0", {}),
            ("stream by a part and a reset (6.1)", b"\x80", {"after": "reset 1"}),
            ("stream by its reset (6.1)", b"", {"before": "bytes 1", "after": "reset 1"}),
            ("stream by its end (6.1)", b"", {"end": True}),
        )
    ),
    Row("a stream of a server without bytes (6.1)", 1, b"", client=True, end=True),
    Row("one that is reset in its head (6.1)", 1, b"\x40\x41", client=True, after="reset 1"),
    Row("a server's stream in its first byte", 1, b"\x40", STREAM_CREATION, client=True, end=True),
    Row("a server's stream in an ID (7.1)", 1, b"\x40\x41\x40", FRAME, client=True, end=True),
    Row("0x54 without WebTransport (9)", OTHER, b"\x40\x54\x01abc", plain=True, end=True),
    Row("0x41 without WebTransport (9)", REQUEST, b"\x40\x41\x01a" + HEADERS, plain=True, end=True),
    Row("a session of a unidirectional stream", OTHER, b"\x40\x54\x02", ID),
    Row("a session of a server's stream", OTHER, b"\x40\x54\x03", ID),
    Row("a bidirectional one of such a session", REQUEST, b"\x40\x41\x02", ID),
    Row("a session ID of a server's stream", REQUEST, b"\x40\x41\x01", ID),
    Row(
        "a stream of a session that is over",
        OTHER,
        b"\x40\x54\0abc",
        SESSION_GONE,
        before="known 0 over",
    ),
    Row(
        "one whose session then ends",
        OTHER,
        b"\x40\x54\0abc",
        SESSION_GONE,
        before="known 0 open",
        after="known 0 over",
    ),
    Row(
        "a stream of a session that is refused",
        OTHER,
        b"\x40\x54\0abc",
        REJECTED,
        before="known 0 refused",
    ),
    Row("one that waited", OTHER, b"\x40\x54\0abc", REJECTED, after="known 0 refused"),
    Row(
        "a stream of a session whose request is over and forgotten",
        OTHER,
        b"\x40\x54\0abc",
        SESSION_GONE,
        before=f"end 0 {HEADERS.hex()}\nforget 0",
    ),
    Row(
        "a stream that overtakes the request of its session",
        OTHER,
        b"\x40\x54\0abc",
        before=f"bytes 8 {HEADERS.hex()}\nforget 0",
    ),
    Row(
        "a stream of a session whose request is 1000 places behind",
        OTHER,
        b"\x40\x54\0abc",
        REJECTED,
        before=f"bytes 4000 {HEADERS.hex()}\nforget 0",
    ),
    Row("a stream that waits, of 4112 bytes", 4, b"\x40\x41\x41\x90" + bytes(4112)),
    Row("a stream of no session at all", OTHER, b"\x40\x54\0abc", ID, before="known 0 impossible"),
    Row(
        "the seventeenth stream that waits",
        1006,
        b"\x40\x54\0abc",
        REJECTED,
        before="\n".join(f"bytes {6 + 4 * turn} 405400" for turn in range(16)),
    ),
    Row(
        "a seventeenth after one was reset",
        1006,
        b"\x40\x54\0abc",
        before="\n".join(f"bytes {6 + 4 * turn} 405400" for turn in range(16)) + "\nreset 6",
    ),
    Row(
        "a seventeenth after one was abandoned",
        1006,
        b"\x40\x54\0abc",
        before="\n".join(f"bytes {6 + 4 * turn} 405400" for turn in range(16)) + "\nabandon 6",
    ),
    Row("an abandoned request", REQUEST, HEADERS, after="abandon 0\nbytes 0 0400\nend 0"),
    Row(
        "an abandoned control stream is read on",
        CONTROL,
        SETTINGS,
        UNEXPECTED,
        after="abandon 2\nbytes 2 0400",
    ),
    Row("a reset before HEADERS (4.1.1)", REQUEST, frame(0x21), INCOMPLETE, after="reset 0"),
    Row("a reset request", REQUEST, HEADERS, after="reset 0\nbytes 0 0400"),
    Row(
        "a session that is told after an error of the connection",
        OTHER,
        b"\x40\x54\0abc",
        MISSING_SETTINGS,
        after="bytes 2 002100\nknown 0 refused",
    ),
    # The control stream (6.2.1, 7.2).
    Row("GOAWAY before SETTINGS (6.2.1)", CONTROL, b"\0" + frame(7, b"\0"), MISSING_SETTINGS),
    Row("a reserved frame before SETTINGS", CONTROL, b"\0" + frame(0x21), MISSING_SETTINGS),
    Row("a frame type of HTTP/2 before them", CONTROL, b"\0" + frame(2), MISSING_SETTINGS),
    Row("two SETTINGS (7.2.4)", CONTROL, control(frame(4)), UNEXPECTED),
    Row(
        "SETTINGS that repeat those before (7.2.4)",
        CONTROL,
        settings((8, 1)) + frame(4, b"\x08\1"),
        UNEXPECTED,
    ),
    Row("DATA on the control stream (7.2.1)", CONTROL, control(frame(0, b"x")), UNEXPECTED),
    Row("HEADERS on the control stream (7.2.2)", CONTROL, control(HEADERS), UNEXPECTED),
    Row("PUSH_PROMISE on it (7.2.5)", CONTROL, control(frame(5)), UNEXPECTED),
    Row("0x41 on it", CONTROL, control(b"\x40\x41\0"), FRAME),
    Row("0x41 on it, without WebTransport (9)", CONTROL, control(b"\x40\x41\0"), plain=True),
    Row(
        "SETTINGS of 4096 bytes, all of unknown identifiers (7.2.4.1)",
        CONTROL,
        b"\0" + frame(4, b"".join(number(0x1000 + n, 4) + number(n, 4) for n in range(512))),
    ),
    Row("1024 unknown frames after them (9)", CONTROL, control(frame(0x21) * 1024)),
    Row("SETTINGS of 4097 bytes (10.5)", CONTROL, b"\0\x04" + number(4097), LOAD),
    Row("a GOAWAY (5.2)", CONTROL, control(frame(7, b"\0"))),
    Row("a GOAWAY that grows from 0 (5.2)", CONTROL, control(frame(7, b"\0"), frame(7, b"\4")), ID),
    Row("a GOAWAY that grows (5.2)", CONTROL, control(frame(7, b"\1"), frame(7, b"\4")), ID),
    Row(
        "GOAWAYs that fall or are equal (5.2)",
        CONTROL,
        control(*(frame(7, number(n)) for n in (99, 99, 3))),
    ),
    Row("a GOAWAY with more (7.1)", CONTROL, control(frame(7, b"\0\0")), FRAME),
    Row("a GOAWAY without its number (7.1)", CONTROL, control(frame(7)), FRAME),
    Row("a GOAWAY with half of it (7.1)", CONTROL, control(frame(7, b"\x40")), FRAME),
    Row("a GOAWAY of 9 bytes (7.1)", CONTROL, control(b"\x07\x09"), FRAME),
    Row("a GOAWAY of no client's request (7.2.6)", 3, control(frame(7, b"\1")), ID, client=True),
    Row("a GOAWAY of one (7.2.6)", 3, control(frame(7, b"\4")), client=True),
    Row("CANCEL_PUSH to a server (7.2.3)", CONTROL, control(frame(3, b"\0")), ID),
    Row("CANCEL_PUSH to a client (7.2.3)", 3, control(frame(3, b"\0")), ID, client=True),
    Row("CANCEL_PUSH without its number (7.1)", CONTROL, control(frame(3)), FRAME),
    Row("MAX_PUSH_ID to a client (7.2.7)", 3, control(frame(13, b"\0")), UNEXPECTED, client=True),
    Row("MAX_PUSH_ID that falls (7.2.7)", CONTROL, control(frame(13, b"\5"), frame(13, b"\4")), ID),
    Row(
        "those that rise or are equal (7.2.7)",
        CONTROL,
        control(*(frame(13, number(n)) for n in (4, 4, 70))),
    ),
    Row("MAX_PUSH_ID with more (7.1)", CONTROL, control(frame(13, b"\0\0")), FRAME),
    Row(
        "PRIORITY_UPDATE, ORIGIN and others (9)",
        CONTROL,
        control(*(frame(kind, b"abcdefghi") for kind in (0xF0700, 0xF0701, 0x0C, 0x89, 0x21))),
    ),
    *(
        Row(f"a frame of type {kind} on it (7.2.8)", CONTROL, control(frame(kind)), UNEXPECTED)
        for kind in HTTP2
    ),
    # Settings (7.2.4).
    *(
        Row(f"the setting {name} of HTTP/2 (7.2.4.1)", CONTROL, settings((name, 0)), WRONG_SETTINGS)
        for name in (0, 2, 3, 4, 5)
    ),
    Row("a setting that is repeated", CONTROL, settings((8, 1), (8, 1)), WRONG_SETTINGS),
    Row("one that is unknown twice", CONTROL, settings((0x21, 1), (0x21, 1))),
    Row("a setting without its value (7.1)", CONTROL, b"\0" + frame(4, b"\x08"), FRAME),
    Row("half of a value (7.1)", CONTROL, b"\0" + frame(4, b"\x08\x40"), FRAME),
    Row("datagrams neither on nor off", CONTROL, settings((0x33, 2)), WRONG_SETTINGS),
    Row("WebTransport without datagrams", CONTROL, settings((0x2B603742, 1))),
    Row("extended CONNECT neither on nor off", CONTROL, settings((8, 2)), WRONG_SETTINGS),
    Row("the largest limit of a section", CONTROL, settings((6, 2**62 - 1))),
    # QPACK's streams, without a table (RFC 9204, sections 3.2.3, 4.3 and 4.4).
    Row("an insertion into a table of no capacity", OTHER, b"\x02\x37aaaa", ENCODER),
    Row("a capacity above 0", OTHER, b"\x02\x3f\xe1\x1f", ENCODER),
    Row("a duplicate", OTHER, b"\x02\0", ENCODER),
    Row("a capacity of 0, twice", OTHER, b"\x02\x20\x20"),
    Row("an acknowledgment of no section", OTHER, b"\x03\x80", DECODER),
    Row("an increment by no insertions", OTHER, b"\x03\0", DECODER),
    Row("cancellations, one of a large stream", OTHER, b"\x03\x4c\x7f\x85\x01"),
    # Requests and responses (4.1, 7.2).
    Row("DATA before HEADERS (4.1)", REQUEST, frame(0, b"x"), UNEXPECTED),
    Row("an empty DATA frame before HEADERS (4.1)", REQUEST, frame(0), UNEXPECTED),
    Row("DATA after trailers (4.1)", REQUEST, request(HEADERS, frame(0)), UNEXPECTED),
    Row("HEADERS after trailers (4.1)", REQUEST, request(HEADERS, HEADERS), UNEXPECTED),
    Row("trailers (4.1)", REQUEST, request(frame(0, b"x"), HEADERS), end=True),
    Row("SETTINGS on a request (7.2.4)", REQUEST, frame(4), UNEXPECTED),
    Row("SETTINGS after HEADERS (7.2.4)", REQUEST, request(frame(4)), UNEXPECTED),
    Row("GOAWAY on a request (7.2.6)", REQUEST, request(frame(7, b"\0")), UNEXPECTED),
    Row("MAX_PUSH_ID on a request (7.2.7)", REQUEST, request(frame(13, b"\0")), UNEXPECTED),
    Row("CANCEL_PUSH on a request (7.2.3)", REQUEST, request(frame(3, b"\0")), UNEXPECTED),
    Row("PUSH_PROMISE to a server (7.2.5)", REQUEST, frame(5), UNEXPECTED),
    Row(
        "PUSH_PROMISE to a client (7.2.5)",
        0,
        request(frame(5)),
        ID,
        client=True,
        before="request 0",
    ),
    *(
        Row(f"a frame of type {kind} on a request (7.2.8)", REQUEST, frame(kind), UNEXPECTED)
        for kind in HTTP2
    ),
    Row("0x41 after HEADERS", REQUEST, request(b"\x40\x41\0"), FRAME),
    Row("0x41 after a reserved frame", REQUEST, frame(0x21) + b"\x40\x41\0", FRAME),
    Row("an end within 0x41's number (7.1)", REQUEST, b"\x40\x41", FRAME, end=True),
    Row("an end within the first number (7.1)", REQUEST, b"\x40", FRAME, end=True),
    Row("an end within a frame's head (7.1)", REQUEST, request(b"\1"), FRAME, end=True),
    Row("an end within HEADERS (7.1)", REQUEST, b"\x01\x28\0\0\x50", FRAME, end=True),
    Row("an end within DATA (7.1)", REQUEST, request(b"\0\5a"), FRAME, end=True),
    Row("an end within an unknown frame (7.1)", REQUEST, request(b"\x21\5a"), FRAME, end=True),
    Row("a reset within DATA (7.1)", REQUEST, request(b"\0\5a"), after="reset 0"),
    Row("a request without bytes (4.1)", REQUEST, b"", INCOMPLETE, end=True),
    Row("a request of reserved frames alone (4.1)", REQUEST, frame(0x21), INCOMPLETE, end=True),
    Row(
        "a response without bytes (4.1)", 0, b"", MESSAGE, client=True, end=True, before="request 0"
    ),
    # Interim responses (4.1).
    response(
        "an interim response, and the final one", frame(0x21) + HEADERS, frame(0, b"x"), told=1
    ),
    response(
        "two interim responses, and trailers", HEADERS, request(frame(0, b"x"), HEADERS), told=2
    ),
    response("DATA after an interim response", frame(0, b"x"), code=UNEXPECTED, told=1),
    response("an empty DATA frame after one", frame(0), code=UNEXPECTED, told=1),
    response(
        "two sections after the final one", request(HEADERS, HEADERS), code=UNEXPECTED, told=1
    ),
    response("DATA after trailers", HEADERS, HEADERS, frame(0, b"x"), code=UNEXPECTED, told=1),
    response("SETTINGS after one", frame(4), code=UNEXPECTED, told=1),
    response("an interim response alone", code=MESSAGE, told=1),
    response("one, and reserved frames", frame(0x21), frame(0x40), code=MESSAGE, told=1),
    response("an end within HEADERS after one", b"\x01\x02\0", code=FRAME, told=1),
    response("64 interim responses", HEADERS * 64, frame(0, b"x"), told=64),
    response("65 interim responses", HEADERS * 65, code=LOAD, told=65),
    response("1024 frames without content after one", frame(0x21) * 1024, HEADERS, told=1),
    response("1025 of them", frame(0x21) * 1025, HEADERS, code=LOAD, told=1),
    Row("no response to a server", REQUEST, request(frame(0, b"x")), before="interims 0 1"),
    Row("HEADERS of more than 4096 bytes", REQUEST, frame(0x01, HEADERS[2:] + LONG_LINE), end=True),
    Row("HEADERS of 65537 bytes (4.2.2)", REQUEST, b"\1" + number(65537) + bytes(9)),
    Row("DATA of 2^62 - 1 bytes", REQUEST, request(b"\0" + number(2**62 - 1) + b"abc")),
    Row("an unknown frame of 2^40 bytes (9)", REQUEST, request(b"\x0f" + number(2**40) + b"abc")),
    Row(
        "an unknown frame of 2^40 bytes before HEADERS, and a reset (4.1.1)",
        REQUEST,
        b"\x0f" + number(2**40) + bytes(1 << 16),
        INCOMPLETE,
        after="reset 0",
    ),
    Row("1024 frames without content (10.5)", REQUEST, request(frame(0x21) * 1024), end=True),
    Row("1025 frames without content (10.5)", REQUEST, request(frame(0x21) * 1025), LOAD),
    Row("1025 empty frames of DATA (10.5)", REQUEST, request(frame(0) * 1025), LOAD),
    Row(
        "reserved frames anywhere (7.2.8)",
        REQUEST,
        frame(0x21, b"a")
        + request(frame(0x40, b"b"), frame(0, b"c"), frame(0x5F), HEADERS, frame(0x21)),
        end=True,
    ),
    Row(
        "numbers in a long form (RFC 9000, 16)",
        REQUEST,
        number(1, 8) + number(8, 4) + HEADERS[2:] + number(0, 2) + number(1, 8) + b"x",
        end=True,
    ),
]


def tries(row):
    """Yields the sizes of the pieces of a row, and whether another stream is beside it."""
    for size in (1, 2, 3, 5, 7, 64, 1 << 20):
        if size > 2 or len(row.data) < 2000:
            yield size, False
            yield size, True
