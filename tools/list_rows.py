"""Lists of recorded connections, and what wt_inspect shows of them.

Each row has a name; what was recorded, as the stream (or `datagrams`), the end that sent it, and
the bytes as hexadecimal digits; the options; the status; and the lines of the text, without their
mark, or parts of it. `{0}` stands for the name of the first file. The words are those of
docs/INSPECTOR.md and of the RFCs.
"""

from inspect_rows import CLOSE, GET, INSERTIONS, OK, SESSION, SETTINGS
from message_bytes import OF_CLIENT, OF_SERVER

CONTROLS = [(2, "client", OF_CLIENT), (3, "server", OF_SERVER)]
SHOWN_CONTROLS = """\
== control streams
-- stream 2 from the client, control: {0}
0     stream             control, type 0x0
1     SETTINGS           7 bytes
        SETTINGS_H3_DATAGRAM (0x33) = 1
        SETTINGS_ENABLE_WEBTRANSPORT (0x2b603742) = 1
10    end
-- stream 3 from the server, control: {1}
0     stream             control, type 0x0
1     SETTINGS           9 bytes
        SETTINGS_H3_DATAGRAM (0x33) = 1
        SETTINGS_ENABLE_WEBTRANSPORT (0x2b603742) = 1
        SETTINGS_ENABLE_CONNECT_PROTOCOL (0x8) = 1
12    end
"""
NO_ERROR = "== verdicts\nno error\n"
# A drain capsule in a DATA frame, streams of the session 0 with some bytes, and a datagram of it.
DRAIN = "0005800078ae00"
STREAM, ONE_WAY, DATAGRAM = "4041006869", "40540078", "0064"
# A session, named in another order than it is shown.
WHOLE_SESSION = [
    *CONTROLS,
    ("datagrams", "server", DATAGRAM),
    (7, "server", ONE_WAY),
    (4, "server", "6f6b"),
    (4, "client", STREAM),
    (0, "server", OK + DRAIN),
    (0, "client", SESSION + CLOSE),
    (8, "client", GET),
]
SHOWN_SESSION = SHOWN_CONTROLS + """\
== session 0
-- stream 0 from the client, request: {7}
0     session request    HEADERS, 80 bytes
        :method = CONNECT
        :protocol = webtransport
        :scheme = https
        :authority = a
        :path = /
83    DATA               10 bytes
        capsule          CLOSE_WEBTRANSPORT_SESSION, 7 bytes
            code = 7
            reason = bye
95    end
-- stream 0 from the server, response: {6}
0     response           HEADERS, 15 bytes
        :status = 200
17    DATA               5 bytes
        capsule          DRAIN_WEBTRANSPORT_SESSION, 0 bytes
24    end
-- stream 4 from the client, WebTransport: {5}
0     WebTransport       session 0
3     payload            2 bytes
5     end
-- stream 4 from the server, WebTransport: {4}
0     payload            2 bytes
2     end
-- stream 7 from the server, WebTransport: {3}
0     stream             WebTransport, type 0x54, session 0
3     payload            1 byte
4     end
-- datagram from the server: {2}
0     datagram           session 0, quarter stream ID 0, 1 byte
2     end
== request 8
-- stream 8 from the client, request: {8}
0     request            HEADERS, 52 bytes
        :method = GET
        :scheme = https
        :authority = a
        :path = /
54    end
== sessions
session 0: / at a, status 200, 2 streams, 1 datagram; closed by the client: code 7, "bye"
== verdicts
the client closed the session: stream 0: code 7, "bye"
"""
# Settings that allow a table of 220 bytes, and one of 219.
TABLE_220, TABLE_219 = "0004030140dc", "0004030140db"
# An encoder stream whose first entry is another one than that of INSERTIONS.
OTHER_INSERTION = "023fbd014a637573746f6d2d6b65790c637573746f6d2d76616c7565"
# A request and a response, which refer to entries of their own tables: the request of RFC 9204,
# appendix B.2, behind :method and :scheme, and a response with the entry before its Base.
REFERRING = [
    (3, "server", TABLE_220),
    (2, "client", TABLE_220),
    (6, "client", INSERTIONS),
    (7, "server", OTHER_INSERTION),
    (0, "client", "01060381d1d71011"),
    (0, "server", "01040200d980"),
]
SHOWN_REFERRING = """\
-- stream 0 from the client, request: {4}
0     request            HEADERS, 6 bytes
        :method = GET
        :scheme = https
        :authority = www.example.com
        :path = /sample/path
8     end
-- stream 0 from the server, response: {5}
0     response           HEADERS, 4 bytes
        :status = 200
        custom-key = custom-value
6     end
"""
# The same with settings of the server that allow less than the encoder stream takes.
TOO_SMALL = [(3, "server", TABLE_219), *REFERRING[1:]]
SHOWN_TOO_SMALL = (
    "== QPACK streams\n-- stream 6 from the client, QPACK encoder: {2}\n"
    "fault: the encoder stream has a fault: "
)
# What no session has: a stream whose session has no ID of one, a reserved stream, a datagram
# without a quarter stream ID, and a stream of the server without a session.
OTHERS = [(10, "client", "405401"), (14, "client", "2178"), (1, "server", "2100")]
SHOWN_OTHERS = "== other streams and datagrams\n-- stream 1 from the server, other: {2}\n"
NO_REQUEST = [(0, "server", OK), (3, "server", SETTINGS)]
# A setting without a name, twice.
REPEATED = [(2, "client", "00040a80ffd2770180ffd27702")]
ONLY_DATAGRAM = [("datagrams", "client", "0164"), (4, "server", OK + DRAIN)]

# What is shown in whole, and what has parts.
WHOLE = [
    ("session", WHOLE_SESSION, "", 0, SHOWN_SESSION),
    ("controls-are-open", CONTROLS, "--strict", 0, SHOWN_CONTROLS + NO_ERROR),
]
PARTS = [
    ("tables-of-both-ends", REFERRING, "", 0, [SHOWN_REFERRING]),
    ("table-too-large", TOO_SMALL, "", 2, [SHOWN_TOO_SMALL, "(dynamic post-base 0)"]),
    ("no-settings-of-the-other-end", REFERRING[1:], "", 0, ["custom-key = custom-value"]),
    ("no-session", OTHERS, "--open", 2, [SHOWN_OTHERS, "stream 10", "H3_ID_ERROR", "stream 14"]),
    ("no-request", NO_REQUEST, "", 0, ["== request 0\n-- stream 0 from the server, response: {0}"]),
    (
        "session-by-a-datagram",
        ONLY_DATAGRAM,
        "",
        0,
        ["== session 4\n-- stream 4 from the server, response: {1}", "DRAIN_WEBTRANSPORT_SESSION"],
    ),
    ("ended", [(0, "client", GET + "000561")], "", 2, ["fault ", "H3_FRAME_ERROR (0x106)"]),
    ("open", [(0, "client", GET + "000561")], "--open", 0, ["cut ", "at least 4 bytes missing"]),
    ("warning", REPEATED, "", 0, ["a setting is repeated", "no error"]),
    ("strict-warning", REPEATED, "--strict", 2, ["a setting is repeated"]),
    ("verdict", [(0, "client", "000161")], "", 2, ["DATA comes before HEADERS", "would close"]),
    (
        "a-fault-beside-others",
        [(0, "client", "0200"), *CONTROLS],
        "",
        2,
        ["H3_FRAME_UNEXPECTED (0x105)", "-- stream 3 from the server, control: {2}"],
    ),
    ("payload", [(4, "client", STREAM)], "--payload", 0, ["payload            2 bytes", "68 69"]),
]
# Texts that are no lists, or name no files, and what is said of them.
BAD = [
    ("no-file", b"0 client\n", "line 1: FILE is missing; a line is such as '0 client "),
    ("no-direction", b"0\n", "line 1: DIRECTION and FILE are missing"),
    ("bad-stream", b"\n0x1 client a\n", "line 2: STREAM is neither 'datagrams' nor"),
    ("wrong-word", b"\n0x1 client a\n", " in decimal digits: '0x1'\n"),
    ("hostile-word", b"\x1b[2J client a\n", " in decimal digits: '\\x1b[2J'\n"),
    ("long-word", b"x" * 41 + b" client a\n", f" in decimal digits: '{'x' * 40}..'\n"),
    ("large-id", b"%d client a\n" % 2**62, f"STREAM is above {2**62 - 1} (2^62 - 1): '{2**62}'"),
    ("bad-direction", b"0 both a\n", "line 1: DIRECTION is neither 'client' nor 'server'"),
    ("upper-case", b"0 Client a\n", ", in lower-case letters: 'Client'\n"),
    ("two-blanks", b"0 client  a\n", "line 1: a tab or more than one blank"),
    ("tabs", b"0\tclient\ta\n", "line 1: a tab or more than one blank"),
    ("wrong-direction", b"2 server a\n", "line 1: DIRECTION is wrong"),
    ("twice", b"0 client a\n\n0 client b\n", "line 3: STREAM and DIRECTION are those of line 1"),
    ("empty-list", b"", "the list has no line, such as '0 client request.bin'"),
    ("list-of-bytes", b"0 client \xff\n", "the list is not UTF-8"),
    ("missing-piece", b"\n0 client missing\n", "line 2 of the list: missing: No such file or"),
    ("hostile-piece", "0 client a\u202eb\n".encode(), "a\\xe2\\x80\\xaeb: No such file or"),
    ("folder-piece", b"0 client /\n", "list: /: the input cannot be read: is it a folder?"),
]
