"""Recorded connections, and what wt_inspect says of each of their sessions.

Each row has a name, what each end sent (by the stream, or `datagrams`, and the end), the options of
wt_inspect, and the lines of the part `== sessions`. The words are those of docs/INSPECTOR.md.
"""

from connection_rows import frame
from message_bytes import CLOSE, SESSION, capsule, data, headers, section
from verdict_rows import CLIENT, CONTROLS, OK, OPEN, SERVER, Row, control, member, number

ASKED = headers(*SESSION)
ACCEPTED = headers(*OK)
REFUSED = headers((b":status", b"404"))
DATAGRAM = ("datagrams", CLIENT)


def close(code, reason=b""):
    """Returns the close of a session (draft-ietf-webtrans-http3-02, section 5)."""
    return data(capsule(0x2843, code.to_bytes(4, "big") + reason))


def session_to(path, authority=b"a"):
    """Returns the request of a session to this path."""
    fields = {**dict(SESSION), b":path": path, b":authority": authority}
    return headers(*fields.items())


def both(client=b"", server=b"", **others):
    """Returns a session in which each end sends this after its header section."""
    return {**CONTROLS, (0, CLIENT): ASKED + client, (0, SERVER): ACCEPTED + server, **others}


# What is in the lines of a session that has no streams and no datagrams.
NONE = "0 streams, 0 datagrams"
AT_A = f"session 0: / at a, status 200, {NONE}"
# A request whose path is in the dynamic table, for which there is no encoder stream.
WITHOUT_PATH = frame(
    0x01,
    b"\2\0" + section(*[field for field in SESSION if field[0] != b":path"])[2:] + b"\x80",
)

ROWS = [
    # how it ended
    Row("refused", both() | {(0, SERVER): REFUSED}, options=""),
    Row("refused-and-open", both() | {(0, SERVER): REFUSED, (6, CLIENT): member(0)}),
    Row("refused-and-closed", both(close(7)) | {(0, SERVER): REFUSED}),
    Row("closed-by-the-client", both(close(4660, "bye, wörld".encode())), options=""),
    Row("closed-by-the-server", both(b"", close(42, b"bye from go")), options=""),
    Row("closed-while-open", both(b"", close(42, b"bye from go"))),
    Row("closed-by-both", both(close(1, b"a"), close(2)), options=""),
    Row("closed-without-code", both(close(0)), options=""),
    Row("closed-twice", both(close(1, b"one") + close(2, b"two"))),
    Row("closed-in-pieces", both(data(CLOSE + b"\7\0\0") + data(b"\0\5bye"))),
    Row("ended-by-both", both(), options=""),
    Row("ended-by-the-client", {(0, CLIENT): ASKED}, options=""),
    Row("ended-by-the-server", {(0, SERVER): ACCEPTED, DATAGRAM: b"\0"}, options=""),
    Row("open", both()),
    Row("not-recorded", {DATAGRAM: b"\1"}, options=""),
    # what was asked for, and the answer
    Row("no-answer", {**CONTROLS, (0, CLIENT): ASKED}),
    Row("an-empty-answer", {**CONTROLS, (0, CLIENT): ASKED, (0, SERVER): b""}),
    Row("an-interim-answer", both() | {(0, SERVER): headers((b":status", b"103"))}),
    Row(
        "a-final-answer",
        both() | {(0, SERVER): headers((b":status", b"103")) + REFUSED},
        options="",
    ),
    Row("an-answer-without-a-status", both() | {(0, SERVER): headers((b"x", b"y"))}),
    Row("an-odd-status", both() | {(0, SERVER): headers((b":status", b"2 00"))}),
    Row("a-path", {**CONTROLS, (0, CLIENT): session_to(b"/chat?room=1", b"127.0.0.1:4433")}),
    Row("a-path-in-a-table", {(0, CLIENT): WITHOUT_PATH}),
    # what a peer makes up
    Row(
        "a-hostile-path",
        {(0, CLIENT): session_to("/\n\u258c a at b, status 200\\\u202e".encode(), b"\xff ;")},
    ),
    Row(
        "a-hostile-reason",
        both(close(3, 'a"; closed by the server: code 4, "\n\u258c'.encode()), close(5, b'"')),
    ),
    # streams and datagrams
    Row(
        "streams-of-both-ends",
        {
            **OPEN,
            (4, CLIENT): b"\x40\x41\0abc",
            (4, SERVER): b"def",
            (6, CLIENT): member(0),
            (15, SERVER): member(0),
            (1, SERVER): b"\x40\x41\0",
            (1, CLIENT): b"ghi",
            DATAGRAM: b"\0abc",
        },
    ),
    Row(
        "two-sessions",
        {
            **OPEN,
            (8, CLIENT): session_to(b"/8"),
            (8, SERVER): ACCEPTED + close(9),
            (6, CLIENT): member(8),
            (10, CLIENT): member(0),
            (14, CLIENT): member(8),
            DATAGRAM: b"\2",
        },
    ),
    Row("a-stream-is-no-session", {(4, CLIENT): b"\x40\x41\0a", DATAGRAM: b"\1"}, options=""),
    # where it is broken
    Row("cut", both(b"\0\5abc")),
    Row("a-fault", both(b"\0\5abc"), options=""),
    Row("a-fault-and-a-close", both(b"\2\0", close(6)), options=""),
    Row("a-fault-before-all", {(0, CLIENT): b"\2\0", DATAGRAM: b"\0"}),
    # beside an error of the connection, after which nothing is judged
    Row(
        "an-error-elsewhere",
        both(close(5, b"so")) | {(3, SERVER): control() + frame(0x07, number(1))},
    ),
]

# The lines of these rows.
LINES = {
    "refused": [f"session 0: / at a, {NONE}; refused with status 404"],
    "refused-and-open": ["session 0: / at a, 1 stream, 0 datagrams; refused with status 404"],
    "refused-and-closed": [f"session 0: / at a, {NONE}; refused with status 404"],
    "closed-by-the-client": [f'{AT_A}; closed by the client: code 4660, "bye, wörld"'],
    "closed-by-the-server": [f'{AT_A}; closed by the server: code 42, "bye from go"'],
    "closed-while-open": [f'{AT_A}; closed by the server: code 42, "bye from go"'],
    "closed-by-both": [
        f'{AT_A}; closed by the client: code 1, "a"; closed by the server: code 2'
    ],
    "closed-without-code": [f"{AT_A}; closed by the client: code 0"],
    "closed-twice": [f'{AT_A}; closed by the client: code 1, "one"'],
    "closed-in-pieces": [f'{AT_A}; closed by the client: code 5, "bye"'],
    "ended-by-both": [f"{AT_A}; ended by both ends without a close (code 0)"],
    "ended-by-the-client": [
        f"session 0: / at a, response not recorded, {NONE};"
        " ended by the client without a close (code 0)"
    ],
    "ended-by-the-server": [
        "session 0: request not recorded, status 200, 0 streams, 1 datagram;"
        " ended by the server without a close (code 0)"
    ],
    "open": [f"{AT_A}; open"],
    "not-recorded": [
        "session 4: request not recorded, response not recorded, 0 streams, 1 datagram;"
        " end unknown"
    ],
    "no-answer": [f"session 0: / at a, response not recorded, {NONE}; open"],
    "an-empty-answer": [f"session 0: / at a, no response, {NONE}; open"],
    "an-interim-answer": [f"session 0: / at a, no response, {NONE}; open"],
    "a-final-answer": [f"session 0: / at a, {NONE}; refused with status 404"],
    "an-answer-without-a-status": [f"session 0: / at a, unknown status, {NONE}; open"],
    "an-odd-status": [f"session 0: / at a, status 2\\x2000, {NONE}; open"],
    "a-path": [
        f"session 0: /chat?room=1 at 127.0.0.1:4433, response not recorded, {NONE}; open"
    ],
    "a-path-in-a-table": [
        f"session 0: unknown path at a, response not recorded, {NONE}; open"
    ],
    "a-hostile-path": [
        "session 0: /\\x0a\\xe2\\x96\\x8c\\x20a\\x20at\\x20b,\\x20status\\x20200"
        "\\x5c\\xe2\\x80\\xae"
        f" at \\xff\\x20;, response not recorded, {NONE}; open"
    ],
    "a-hostile-reason": [
        f"{AT_A}; closed by the client: code 3,"
        ' "a\\x22; closed by the server: code 4, \\x22\\x0a\\xe2\\x96\\x8c";'
        ' closed by the server: code 5, "\\x22"'
    ],
    "streams-of-both-ends": ["session 0: / at a, status 200, 4 streams, 1 datagram; open"],
    "two-sessions": [
        "session 0: / at a, status 200, 1 stream, 0 datagrams; open",
        "session 8: /8 at a, status 200, 2 streams, 1 datagram; closed by the server: code 9",
    ],
    "a-stream-is-no-session": [
        "session 0: request not recorded, response not recorded, 1 stream, 0 datagrams;"
        " end unknown",
        "session 4: request not recorded, response not recorded, 0 streams, 1 datagram;"
        " end unknown",
    ],
    "cut": [f"{AT_A}; stream 0 of the client is cut at byte {len(ASKED)}; open"],
    "a-fault": [
        f"{AT_A}; stream 0 of the client has a fault at byte {len(ASKED)};"
        " ended by the server without a close (code 0)"
    ],
    "a-fault-and-a-close": [
        f"{AT_A}; stream 0 of the client has a fault at byte {len(ASKED)};"
        " closed by the server: code 6"
    ],
    "a-fault-before-all": [
        "session 0: no request, response not recorded, 0 streams, 1 datagram;"
        " stream 0 of the client has a fault at byte 0; open"
    ],
    "an-error-elsewhere": [f'{AT_A}; closed by the client: code 5, "so"'],
}
assert [row.name for row in ROWS] == list(LINES)
