"""Wrong messages and sessions, and those that look wrong, by the rule that each violates or keeps.

The codes are those of RFC 9114, RFC 9204, RFC 9297 and draft-ietf-webtrans-http3-02 (webtrans). A
section without a name is one of RFC 9114.
"""

from dataclasses import replace

from connection_rows import CLOSED_CRITICAL, FRAME, ID, INCOMPLETE, MESSAGE, OTHER, REJECTED
from connection_rows import REQUEST, RESPONSE, ROWS, SESSION_GONE, TRAILERS, UNEXPECTED, Row
from connection_rows import frame, number
from message_bytes import CLOSE, CONNECT, GET, OF_CLIENT, OF_SERVER, SESSION, capsule, data, headers

DATAGRAM_ERROR, UNDECODABLE = 0x33, 0x200
LATE = 4


def without(fields, *names):
    return [one for one in fields if one[0] not in names]


def message(shows, *frames, code=None, end=True, **more):
    """Returns the row of a request."""
    return Row(shows, REQUEST, b"".join(frames), code, end=end, **more)


def malformed(shows, *fields):
    return message(shows, headers(*fields), code=MESSAGE, end=False)


def answer(shows, *frames, code=None, asked="", end=True):
    """Returns the row of a response to a request that asks for this."""
    before = f"request 0 {asked}".rstrip()
    return Row(shows, 0, b"".join(frames), code, end, True, before=before)


def status(code, *fields):
    return headers((b":status", code), *fields)


def in_session(shows, *frames, code=None, end=False, **more):
    """Returns the row of a session that a server accepts."""
    before = f"bytes 2 {OF_CLIENT}\nanswer 0 200\n" + more.pop("before", "")
    return Row(
        shows, REQUEST, headers(*SESSION) + b"".join(frames), code, end, before=before, **more
    )


def in_accepted(shows, *frames, code=None, end=False, **more):
    """Returns the row of a session that a server accepted, at the client."""
    content = RESPONSE + b"".join(frames)
    return Row(shows, 0, content, code, end, True, before="request 0 session", **more)


def late(shows, before, code):
    """Returns the row of a stream of session 0, after these lines."""
    return Row(shows, OTHER, MEMBER, code, before=before)


# A section with the method alone, and the first byte of the next frame.
METHOD_ALONE = frame(1, b"\0\0\xd1") + b"\1"
SESSION_HEX = headers(*SESSION).hex()
OTHER_PROTOCOL = [*without(SESSION, b":protocol"), (b":protocol", b"websocket")]
# A stream of session 0.
MEMBER = b"\x40\x54\0abc"
OPEN = f"bytes 2 {OF_CLIENT}\nanswer 0 200\nbytes 0 {SESSION_HEX}\n"
SESSION_ROWS = [
    # Field sections (RFC 9204, sections 2.2.3, 3.1, 4.5 and 6).
    message("an empty field section", frame(1), code=UNDECODABLE, end=False),
    message("a section without its Delta Base", frame(1, b"\0"), code=UNDECODABLE, end=False),
    message("a section that refers to a table (4.5.1.1)", frame(1, b"\2\0\xd1"), code=UNDECODABLE),
    message("a Required Insert Count without a reference", frame(1, b"\1\0"), code=UNDECODABLE),
    message(
        "a sign bit, and no insertions (4.5.1.2)",
        frame(1, b"\0\x80\xd1\xd7\x50\1a\xc1"),
        code=UNDECODABLE,
    ),
    message(
        "a sign bit and a Delta Base", frame(1, b"\0\x85\xd1\xd7\x50\1a\xc1"), code=UNDECODABLE
    ),
    message("a Delta Base without the sign bit", frame(1, b"\0\5\xd1\xd7\x50\1a\xc1")),
    message("a line of the dynamic table", frame(1, b"\2\0\x80"), code=UNDECODABLE, end=False),
    message("a line of the dynamic table alone", frame(1, b"\0\0\xd1\x80"), code=UNDECODABLE),
    message("a name of the dynamic table", frame(1, b"\0\0\x40\1x"), code=UNDECODABLE),
    message("a line after the base", frame(1, b"\0\0\x10"), code=UNDECODABLE),
    message("entry 99 of the static table", frame(1, b"\0\0\xff\x24"), code=UNDECODABLE),
    message("entry 98 of the static table", frame(1, b"\0\0\xd1\xd7\x50\1a\xc1\xff\x23")),
    message("a line that is cut", frame(1, b"\0\0\xd1\x23ab"), code=UNDECODABLE),
    message(
        "text with the code of its end", frame(1, b"\0\0\x50\x84\xff\xff\xff\xff"), code=UNDECODABLE
    ),
    message(
        "text that is padded with 0", frame(1, b"\0\0\xd1\xd7\x50\x81\x18\xc1"), code=UNDECODABLE
    ),
    message("an integer without end", frame(1, b"\0\0\xff" + b"\xff" * 11), code=UNDECODABLE),
    message(
        "trailers that refer to a table", headers(*GET), frame(1, b"\2\0\x80"), code=UNDECODABLE
    ),
    message("a value of bytes above 0x7f", headers(*GET, (b"x", b"\x80\xff"))),
    # Requests (4.1.2 to 4.4).
    malformed("a request without fields"),
    *(malformed(f"a request without {name.decode()}", *without(GET, name)) for name, _ in GET),
    malformed("an upper-case name (4.2)", *GET, (b"X", b"y")),
    malformed("an empty name (4.2)", *GET, (b"", b"y")),
    malformed("a line feed (10.3)", *GET, (b"x", b"a\nb")),
    malformed("a NUL (10.3)", *GET, (b"x", b"a\0b")),
    malformed("a space before a value (RFC 9110, 5.5)", *GET, (b"x", b" a")),
    malformed("transfer-encoding (4.2)", *GET, (b"transfer-encoding", b"chunked")),
    malformed("te other than trailers (4.2)", *GET, (b"te", b"gzip")),
    message("te with trailers (4.2)", headers(*GET, (b"te", b"trailers"))),
    malformed("an unknown pseudo-header field (4.3)", *GET, (b":x", b"y")),
    malformed("one of a response (4.3)", *GET, (b":status", b"200")),
    malformed("one that is repeated (4.3.1)", *GET, GET[3]),
    malformed("one after a field (4.3)", *GET[:3], (b"x", b"y"), GET[3]),
    malformed("an empty path (4.3.1)", *GET[:3], (b":path", b"")),
    malformed("two authorities (4.3.1)", *GET, (b"host", b"b")),
    message("a host alone (4.3.1)", headers(*without(GET, b":authority"), (b"host", b"a"))),
    malformed("user information (4.3.1)", *without(GET, b":authority"), (b"host", b"a@b")),
    malformed("CONNECT with a path (4.4)", *CONNECT, (b":path", b"/")),
    malformed("CONNECT without an authority (4.4)", CONNECT[0]),
    malformed("CONNECT with a host alone (4.4)", CONNECT[0], (b"host", b"a")),
    malformed("a protocol without CONNECT (RFC 8441, 4)", *GET, SESSION[-1]),
    message(
        "a protocol that is not known (RFC 9220, 3)",
        headers(*SESSION[:-1], (b":protocol", b"connect-udp")),
        end=False,
    ),
    malformed("a session without a scheme (RFC 8441, 4)", *without(SESSION, b":scheme")),
    malformed("a session without a path (RFC 8441, 4)", *without(SESSION, b":path")),
    malformed("a session without an authority", *without(SESSION, b":authority")),
    malformed("a session of http (webtrans 3.3)", SESSION[0], (b":scheme", b"http"), *SESSION[2:]),
    malformed("a session with content (RFC 9297, 3.2)", *SESSION, (b"content-length", b"0")),
    Row("a session where extended CONNECT is off", 0, headers(*SESSION), MESSAGE, plain=True),
    message(
        "trailers with a pseudo-header field (4.3)",
        headers(*GET),
        headers((b":path", b"/")),
        code=MESSAGE,
    ),
    message(
        "content that is too long (4.1.2)",
        headers(*GET, (b"content-length", b"3")),
        data(b"abcd"),
        code=MESSAGE,
    ),
    message(
        "too long by a second frame",
        headers(*GET, (b"content-length", b"3")),
        data(b"abc"),
        data(b"d"),
        code=MESSAGE,
    ),
    message(
        "the head alone of content that is too long, and the end (7.1)",
        headers(*GET, (b"content-length", b"3")),
        b"\0\4",
        code=FRAME,
    ),
    message(
        "the head alone of content that is too long, and a reset",
        headers(*GET, (b"content-length", b"3")),
        b"\0\4",
        end=False,
        after="reset 0",
    ),
    message(
        "content that is too short",
        headers(*GET, (b"content-length", b"3")),
        data(b"ab"),
        code=MESSAGE,
    ),
    message(
        "content of its length",
        headers(*GET, (b"content-length", b"3")),
        data(b"ab"),
        data(b""),
        data(b"c"),
        TRAILERS,
    ),
    malformed("two lengths", *GET, (b"content-length", b"3"), (b"content-length", b"4")),
    malformed("no length", *GET, (b"content-length", b"-1")),
    message(
        "a section above the limit (4.2.2)", headers(*GET, *[(b"x", b"y" * 999)] * 64), end=False
    ),
    # Responses (4.1, 4.3.2).
    *(
        answer(f"the status {code!r}", status(code), code=MESSAGE)
        for code in (b"+200", b"0200", b"99", b"101", b"")
    ),
    answer("the status 600 (RFC 9110, 15)", status(b"600")),
    answer("no status", headers((b"x", b"y")), code=MESSAGE),
    answer("two statuses", status(b"200", (b":status", b"200")), code=MESSAGE),
    answer("a response with a path", status(b"200", (b":path", b"/")), code=MESSAGE),
    answer("an interim response alone", status(b"103"), code=MESSAGE),
    answer("DATA after an interim response", status(b"103"), data(b"x"), code=UNEXPECTED),
    answer("content of a response to HEAD", RESPONSE, data(b"x"), code=MESSAGE, asked="head"),
    answer("its length without content", status(b"200", (b"content-length", b"9")), asked="head"),
    answer("content of 204 (RFC 9110, 6.4.1)", status(b"204"), data(b"x"), code=MESSAGE),
    answer("content of 304", status(b"304", (b"content-length", b"1")), data(b"x"), code=MESSAGE),
    answer("the head alone of content of 304, and the end", status(b"304"), b"\0\1", code=FRAME),
    answer("304 with a length", status(b"304", (b"content-length", b"9"))),
    answer(
        "content that is too short",
        status(b"200", (b"content-length", b"2")),
        data(b"x"),
        code=MESSAGE,
    ),
    answer(
        "content that is too long",
        status(b"200", (b"content-length", b"2")),
        data(b"xyz"),
        code=MESSAGE,
    ),
    answer(
        "a tunnel with a length (RFC 9110, 9.3.6)",
        status(b"200", (b"content-length", b"2")),
        data(b"x"),
        asked="connect",
    ),
    answer(
        "HEADERS in a tunnel (4.4)",
        RESPONSE,
        data(b"x"),
        TRAILERS,
        code=UNEXPECTED,
        asked="connect",
    ),
    answer(
        "the head of HEADERS in a tunnel",
        RESPONSE,
        b"\1\x09",
        code=UNEXPECTED,
        asked="connect",
        end=False,
    ),
    answer("an unknown frame in a tunnel", RESPONSE, frame(0x21), data(b"x"), asked="connect"),
    answer("te in a response (4.2)", status(b"200", (b"te", b"trailers")), code=MESSAGE),
    *(
        answer(
            f"a session by {code.decode()} (RFC 9297, 3.2)",
            status(code),
            code=MESSAGE,
            asked="session",
        )
        for code in (b"204", b"205", b"206")
    ),
    answer(
        "a session with a length",
        status(b"200", (b"content-length", b"2")),
        code=MESSAGE,
        asked="session",
    ),
    answer(
        "a session that is refused",
        status(b"404", (b"content-length", b"2")),
        data(b"xy"),
        TRAILERS,
        asked="session",
    ),
    # Sessions (webtrans 4 and 5; RFC 9297, section 3).
    in_session("a session that ends", end=True),
    in_session("a session that is closed", data(capsule(0x2843, b"\0\0\0\7end")), end=True),
    in_session("a close of 3 bytes", data(capsule(0x2843, b"abc")), code=MESSAGE),
    in_session("the head of a close of 1029 bytes", data(CLOSE + number(1029)), code=MESSAGE),
    in_session("a close of 1028 bytes", data(capsule(0x2843, bytes(4) + b"x" * 1024)), end=True),
    in_session(
        "a reason that is not UTF-8", data(capsule(0x2843, bytes(4) + b"\xff")), code=MESSAGE
    ),
    in_session("DATA after the close", data(capsule(0x2843, bytes(4))), data(b"x"), code=MESSAGE),
    in_session("a byte after it", data(capsule(0x2843, bytes(4)) + b"x"), code=MESSAGE),
    in_session(
        "a reserved frame after it", data(capsule(0x2843, bytes(4))), frame(0x21), code=MESSAGE
    ),
    in_session("HEADERS after it", data(capsule(0x2843, bytes(4))), TRAILERS, code=MESSAGE),
    in_session("an end within a capsule", data(CLOSE + b"\5abc"), code=MESSAGE, end=True),
    in_session("an end within its head", data(b"\x68"), code=MESSAGE, end=True),
    in_session(
        "a capsule over three frames", data(CLOSE), data(b"\7\0\0"), data(b"\0\0end"), end=True
    ),
    in_session(
        "unknown capsules", data(capsule(0x17, b"abc") + capsule(0x4242, bytes(5000))), end=True
    ),
    in_session("an unknown capsule of 2^40 bytes", data(number(0x4242) + number(2**40) + b"abc")),
    in_session("a drain", data(capsule(0x78AE, b"")), end=True),
    in_session("a drain with a value", data(capsule(0x78AE, b"x")), code=MESSAGE),
    in_session("a datagram capsule (RFC 9297, 3.5)", data(capsule(0, b"abc")), end=True),
    in_session("SETTINGS in a session (4.4)", frame(4), code=UNEXPECTED),
    in_session("HEADERS in a session (4.4)", TRAILERS, code=UNEXPECTED),
    in_session("the head of HEADERS in a session (4.4)", b"\1\x09", code=UNEXPECTED),
    in_session("a frame type of HTTP/2 in a session", frame(2), code=UNEXPECTED),
    in_session("0x41 in a session (webtrans 4.2)", b"\x40\x41\0", code=FRAME),
    in_session("an unknown frame in a session", frame(0x21, b"abc"), frame(0xF0700), end=True),
    in_session("an end within DATA (7.1)", b"\0\5a", code=FRAME, end=True),
    in_session("1024 frames without content", frame(0x21) * 1024, end=True),
    in_session("1025 frames without content", frame(0x21) * 1025, code=0x107),
    in_session("a reset session", after="reset 0"),
    in_session(
        "a reset session with a stream",
        code=SESSION_GONE,
        before=f"bytes {LATE} 404100616263\n",
        after="reset 0",
    ),
    in_session("an abandoned session", data(b"\x17"), after="abandon 0\nbytes 0 00\nend 0"),
    in_accepted("an accepted session that ends", end=True),
    in_accepted("one that is closed", data(capsule(0x2843, b"\0\0\0\7end")), end=True),
    in_accepted("a close of 3 bytes, at a client", data(capsule(0x2843, b"abc")), code=MESSAGE),
    in_accepted("HEADERS, at a client", TRAILERS, code=UNEXPECTED),
    in_accepted("PUSH_PROMISE, at a client (4.4)", frame(5, b"\0"), code=UNEXPECTED),
    in_accepted(
        "a byte after the close, at a client", data(capsule(0x2843, bytes(4)) + b"x"), code=MESSAGE
    ),
    message("a request of :method alone, and an end within a frame", METHOD_ALONE, code=MESSAGE),
    message("a session before SETTINGS", headers(*SESSION), end=False),
    message(
        "a request reset before its HEADERS (4.1.1)",
        frame(0x21),
        code=INCOMPLETE,
        end=False,
        after="reset 0",
    ),
    # Streams of sessions, by what became of these (webtrans 4; table of the codes: 8.1).
    late("a stream of an open session", OPEN, None),
    late("one after a GOAWAY (5.2; webtrans 4.6)", OPEN + "bytes 2 070100", None),
    Row(
        "a session that goes on after a GOAWAY (5.2)",
        0,
        RESPONSE + data(capsule(0, b"abc")),
        end=True,
        client=True,
        before=f"request 0 session\nbytes 3 {OF_SERVER}070104",
    ),
    late("one of a session that ended", OPEN + "end 0", SESSION_GONE),
    late(
        "one of a session that was closed",
        OPEN + "bytes 0 " + data(capsule(0x2843, bytes(4))).hex(),
        SESSION_GONE,
    ),
    Row(
        "a bidirectional stream of a session that was closed",
        LATE,
        b"\x40\x41\0late",
        SESSION_GONE,
        before=OPEN + "bytes 0 " + data(capsule(0x2843, bytes(4))).hex(),
    ),
    late("one of a session that was reset", OPEN + "reset 0", SESSION_GONE),
    late("one of a session that was abandoned", OPEN + "abandon 0", SESSION_GONE),
    late("one of a session whose stream is to stop", OPEN + "stop 0", SESSION_GONE),
    late("one of a session that is refused", OPEN.replace("200", "404"), REJECTED),
    late("one of a request for no session", f"bytes 0 {headers(*GET).hex()}", REJECTED),
    late("one of a request that ended", f"end 0 {headers(*GET).hex()}", REJECTED),
    late("one of a tunnel", f"answer 0 200\nbytes 0 {headers(*CONNECT).hex()}", REJECTED),
    late("one of a malformed request", f"bytes 0 {headers(*GET[:3]).hex()}", None),
    late("one of a stream of a session", "bytes 0 404104", ID),
    Row("a stream of its own session", REQUEST, b"\x40\x41\0", ID),
    Row(
        "a stream that waits, and its session is refused",
        OTHER,
        MEMBER,
        REJECTED,
        after=OPEN.replace("200", "403"),
    ),
    Row(
        "a stream that waits, and its session ends",
        OTHER,
        MEMBER,
        SESSION_GONE,
        after=OPEN + "end 0",
    ),
    *(
        Row(f"a stream whose session {how}", OTHER, MEMBER, SESSION_GONE, before=OPEN, after=after)
        for how, after in (
            *(("ends after it", "end 0"), ("is reset after it", "reset 0")),
            *(("is abandoned after it", "abandon 0"), ("is stopped after it", "stop 0")),
            ("is closed after it", f"bytes 0 {data(capsule(0x2843, bytes(4))).hex()}"),
        )
    ),
    Row(
        "a stream whose session has an error after it",
        OTHER,
        MEMBER,
        before=OPEN,
        after=f"bytes 0 {data(capsule(0x2843, b'abc')).hex()}",
    ),
    Row(
        "a stream that ends before its session",
        *(OTHER, MEMBER),
        end=True,
        before=OPEN,
        after="end 0",
    ),
    Row(
        "a stream of the server whose session ends after it",
        1,
        b"abc",
        SESSION_GONE,
        before=OPEN + "session 1 0",
        after="end 0",
    ),
    Row(
        "a stream of another session than the one that ends",
        OTHER,
        b"\x40\x54\x04abc",
        before=OPEN + f"answer 4 200\nbytes 4 {SESSION_HEX}",
        after="end 0",
    ),
    Row(
        "a stream that waits, and its request is malformed",
        OTHER,
        MEMBER,
        None,
        after=f"bytes 0 {headers(*GET[:3]).hex()}",
    ),
    Row("a stream of no request of the client", 7, MEMBER, ID, client=True),
    Row(
        "one of a request for no session", 7, MEMBER, ID, client=True, before="request 0"
    ),
    Row(
        "one of a session that waits for its answer",
        7,
        MEMBER,
        client=True,
        before="request 0 session",
    ),
    # Datagrams (RFC 9297, section 2.1), and streams that the peer asks to stop.
    Row("a datagram without its number", OTHER, b"", DATAGRAM_ERROR, after="datagram "),
    Row("a datagram with half of it", OTHER, b"", DATAGRAM_ERROR, after="datagram 40"),
    Row("a datagram of stream 2^62", OTHER, b"", DATAGRAM_ERROR, after="datagram d000000000000000"),
    Row("a datagram of stream 2^62 - 4", OTHER, b"", after="datagram cfffffffffffffff"),
    *(
        Row(
            f"a datagram of {shows} (RFC 9297, 2)",
            REQUEST,
            headers(*fields),
            DATAGRAM_ERROR,
            before=f"bytes 2 {OF_CLIENT}",
            after="datagram 00aa",
            of_stream=True,
        )
        for shows, fields in (
            ("a request", GET),
            ("a CONNECT", CONNECT),
            ("an extended CONNECT of another protocol", OTHER_PROTOCOL),
        )
    ),
    Row(
        "a datagram of a session that is over (RFC 9297, 2.1)",
        OTHER,
        b"",
        before=OPEN + "end 0",
        after="datagram 00aa",
    ),
    Row(
        "a datagram where they are off (RFC 9297, 2.1.1)",
        OTHER,
        b"",
        plain=True,
        after="datagram 40",
    ),
    *(
        Row(
            f"a stop of the {name} stream (6.2.1)",
            OTHER,
            b"",
            CLOSED_CRITICAL,
            after=f"stopped {name}",
        )
        for name in ("control", "encoder", "decoder")
    ),
    Row("a stop of a response (4.1)", REQUEST, headers(*GET), after="stopped message"),
]
# Errors besides that of the row's code.
BESIDES = {
    "a stream whose session has an error after it": [(MESSAGE, "stream"), (SESSION_GONE, "stream")],
    "one of a malformed request": [(MESSAGE, "stream"), (REJECTED, "stream")],
    "a stream that waits, and its request is malformed": [
        (MESSAGE, "stream"), (REJECTED, "stream")
    ],
}


def rows():
    """Returns all rows of which messages and sessions are read."""
    shared = [row for row in ROWS if "known " not in row.before + row.after]
    return [*(replace(row) for row in shared), *SESSION_ROWS]
