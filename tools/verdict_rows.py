"""Recorded connections, and what each end would have said of the other.

Each row has a name, what each end sent (by the stream, or `datagrams`, and the end), the options of
wt_inspect, and the verdicts: what was found, by which end, where, and the code. The codes are those
of RFC 9114, RFC 9204, RFC 9297 and draft-ietf-webtrans-http3-02 (webtrans); a section without a
name is one of RFC 9114.
"""

from dataclasses import dataclass, field

from connection_rows import frame, number, settings
from message_bytes import CLOSE, CONNECT, GET, OF_CLIENT, OF_SERVER, SESSION, capsule, data
from message_bytes import headers, line, prefixed, section

CLIENT, SERVER = "client", "server"
DATAGRAM, CREATION, UNEXPECTED, ID = 0x33, 0x103, 0x105, 0x108
MISSING_SETTINGS, REJECTED, INCOMPLETE, MESSAGE = 0x10A, 0x10B, 0x10D, 0x10E
UNDECODABLE, ENCODER, DECODER = 0x200, 0x201, 0x202
NO_SESSION = 0x3994BD84
# What is no fault of the peer.
NOTES = {
    "rejected request",
    "large section",
    "blocked section",
    "no session",
    "no settings",
    "closed session",
    "lost session",
}
OK = [(b":status", b"200")]
# The control streams of both ends.
CONTROLS = {(2, CLIENT): bytes.fromhex(OF_CLIENT), (3, SERVER): bytes.fromhex(OF_SERVER)}
# A request and its response, and a session that is accepted.
ASKED = {(0, CLIENT): headers(*GET), (0, SERVER): headers(*OK)}
OPEN = {**CONTROLS, (0, CLIENT): headers(*SESSION), (0, SERVER): headers(*OK)}
# A close of a session with a code and a reason (webtrans, section 5).
BYE = CLOSE + b"\7\0\0\0\5bye"
# The setting of the largest capacity of a dynamic table (RFC 9204, section 5), with which a table
# has at most 16 entries (section 4.5.1.1).
TABLE = 512
# The instruction that sets this capacity (RFC 9204, section 4.3.1).
SET_CAPACITY = b"\2" + prefixed(0x20, 5, TABLE)


@dataclass
class Row:
    """A recorded connection: what was sent, the options, and the verdicts."""

    name: str
    sent: dict
    verdicts: list = field(default_factory=list)
    options: str = "--open"

    def status(self):
        """Returns the exit status that the verdicts make."""
        return 2 if any(one[0] not in NOTES for one in self.verdicts) else 0


def error(by, stream, code):
    return ("connection error", by, stream, code)


def reset(by, stream, code):
    return ("stream error", by, stream, code)


def malformed(by, stream):
    return ("malformed message", by, stream, MESSAGE)


def member(session):
    """Returns a unidirectional stream of a session (webtrans, section 4.1)."""
    return number(0x54) + number(session) + b"abc"


def control(*frames, pairs=()):
    return settings(*pairs) + b"".join(frames)


def goaway(first):
    return frame(0x07, number(first))


def inserted(value):
    """Returns the insertion of a field x (RFC 9204, section 4.3.3)."""
    return prefixed(0x40, 5, 1) + b"x" + prefixed(0, 7, len(value)) + value


def referring(required, fields):
    """Returns HEADERS with these fields, and the last of so many entries (RFC 9204, sections 4.5.1
    and 4.5.2)."""
    lines = b"".join(line(name, value) for name, value in fields)
    count = prefixed(0, 8, required % (2 * (TABLE // 32)) + 1)
    return frame(0x01, count + b"\0" + lines + b"\x80")


def with_table(by, encoder, messages):
    """Returns a connection whose end `by` inserts into its table with this encoder stream, which
    the other end allows."""
    other, own, its = (SERVER, 3, 6) if by == CLIENT else (CLIENT, 2, 7)
    pairs = [(0x01, TABLE), (0x07, 16), (0x33, 1), (0x2B603742, 1), (0x08, 1)]
    return {
        **CONTROLS,
        (own, other): control(pairs=pairs),
        (its, by): SET_CAPACITY + encoder,
        **messages,
    }


def many(by, count, stream_of):
    """Returns messages of this end, each of which needs one insertion more than the one before, on
    these streams."""
    fields = GET if by == CLIENT else OK
    encoder = b"".join(inserted(b"%d" % place) for place in range(count))
    messages = {(stream_of(n), by): referring(n + 1, fields) for n in range(count)}
    others = {(stream_of(n), CLIENT): headers(*GET) for n in range(count) if by == SERVER}
    return with_table(by, encoder, {**others, **messages})


# What breaks no rule.
GOOD = [
    Row("a-request", {**CONTROLS, **ASKED}),
    Row("an-ended-request", {**CONTROLS, **ASKED}, options=""),
    Row("one-direction", {(0, CLIENT): headers(*GET)}),
    Row("the-other-direction", {(0, SERVER): headers(*OK)}),
    Row("a-session", {**OPEN, (6, CLIENT): member(0), (15, SERVER): member(0)}),
    Row(
        "both-directions-of-a-stream",
        {**OPEN, (4, CLIENT): b"\x40\x41\0abc", (4, SERVER): b"def", (1, SERVER): b"\x40\x41\0"},
    ),
    Row("a-datagram", {**OPEN, ("datagrams", CLIENT): b"\0abc"}),
    Row("a-session-without-answer", {k: v for k, v in OPEN.items() if k != (0, SERVER)}),
    # (4.3.2; RFC 9110, section 8.6: a response to HEAD has the length, and no content)
    Row(
        "a-response-to-head",
        {
            **CONTROLS,
            (0, CLIENT): headers((b":method", b"HEAD"), *GET[1:]),
            (0, SERVER): headers(*OK, (b"content-length", b"5")),
        },
        options="",
    ),
    # (7.2.7)
    Row(
        "a-push-that-is-allowed",
        {
            **CONTROLS,
            **ASKED,
            (2, CLIENT): control(frame(0x0D, b"\1")),
            (15, SERVER): b"\1\0" + headers(*OK),
        },
    ),
    Row("a-reserved-stream", {**CONTROLS, **ASKED, (6, CLIENT): b"\x21abc"}),
    # (RFC 9204, section 2.1)
    Row(
        "a-section-with-a-table",
        with_table(CLIENT, inserted(b"a"), {(0, CLIENT): referring(1, GET)}),
    ),
    Row("more-insertions-than-entries", many(CLIENT, 40, lambda n: 4 * n)),
    Row("responses-in-another-order", many(SERVER, 30, lambda n: 4 * (29 - n))),
    Row(
        "an-acknowledgment",
        with_table(
            SERVER,
            inserted(b"a"),
            {**ASKED, (0, SERVER): referring(1, OK), (10, CLIENT): b"\3\x80"},
        ),
    ),
]

# What is no fault of the other end.
NOTED = [
    # (5.2)
    Row(
        "a-request-above-goaway",
        {
            **CONTROLS,
            **ASKED,
            (3, SERVER): control(goaway(4)),
            (4, CLIENT): headers(*GET),
        },
        [("rejected request", SERVER, 4, REJECTED)],
    ),
    # (webtrans, section 4.5)
    Row(
        "a-stream-of-no-session",
        {**CONTROLS, (6, CLIENT): member(0)},
        [("no session", SERVER, 6, None)],
    ),
    # (RFC 9204, section 2.1.2)
    Row(
        "a-blocked-section",
        with_table(CLIENT, b"", {(0, CLIENT): referring(1, GET)}),
        [("blocked section", SERVER, 0, None)],
    ),
    # (webtrans, section 3.1)
    Row(
        "no-settings",
        {**OPEN, (2, CLIENT): b"\0"},
        [("no settings", SERVER, 0, None)],
    ),
    # (4.2.2)
    Row(
        "a-large-section",
        {
            **CONTROLS,
            (0, CLIENT): headers(*GET, (b"x", b"y" * 100)),
            (3, SERVER): control(pairs=[(0x06, 200)]),
        },
        [("large section", SERVER, 0, None)],
    ),
    # (webtrans, section 5)
    Row(
        "a-closed-session",
        {
            **OPEN,
            (0, CLIENT): headers(*SESSION) + data(BYE),
            (6, CLIENT): member(0),
        },
        [("closed session", SERVER, 0, None)],
        options="",
    ),
]

# Errors of the connection.
CONNECTION = [
    # (6.2.1)
    Row(
        "a-second-control-stream",
        {**CONTROLS, **ASKED, (6, CLIENT): bytes.fromhex(OF_CLIENT)},
        [error(SERVER, 6, CREATION)],
    ),
    # (6.2.1; RFC 9000, section 2.1: the stream with the lower ID was opened first, and its SETTINGS
    # count, by which the request for a session is valid or malformed)
    Row(
        "a-second-control-stream-of-the-server",
        {**OPEN, (7, SERVER): control()},
        [error(CLIENT, 7, CREATION)],
    ),
    Row(
        "a-second-control-stream-that-is-listed-first",
        {(7, SERVER): control(), **OPEN},
        [error(CLIENT, 7, CREATION)],
    ),
    Row(
        "no-first-settings",
        {**CONTROLS, **ASKED, (2, CLIENT): b"\0" + goaway(0)},
        [error(SERVER, 2, MISSING_SETTINGS)],
    ),
    # (7.2.4)
    Row(
        "second-settings",
        {**CONTROLS, **ASKED, (3, SERVER): bytes.fromhex(OF_SERVER) + frame(0x04)},
        [error(CLIENT, 3, UNEXPECTED)],
    ),
    # (4.1)
    Row(
        "data-before-headers",
        {**CONTROLS, **ASKED, (0, CLIENT): data(b"abc") + headers(*GET)},
        [error(SERVER, 0, UNEXPECTED)],
    ),
    # (5.2)
    Row(
        "goaway-with-the-id-of-no-request",
        {**CONTROLS, **ASKED, (3, SERVER): bytes.fromhex(OF_SERVER) + goaway(1)},
        [error(CLIENT, 3, ID)],
    ),
    Row(
        "goaway-that-rises",
        {**CONTROLS, **ASKED, (3, SERVER): bytes.fromhex(OF_SERVER) + goaway(4) + goaway(8)},
        [error(CLIENT, 3, ID)],
    ),
    # (webtrans, section 4)
    Row(
        "a-session-of-no-request",
        {**OPEN, (6, CLIENT): member(1)},
        [error(SERVER, 6, ID)],
    ),
    Row(
        "a-session-that-was-not-asked-for",
        {**OPEN, (15, SERVER): member(8)},
        [error(CLIENT, 15, ID)],
    ),
    # (6.2.2 and 7.2.7)
    Row(
        "a-push-that-is-not-allowed",
        {**CONTROLS, **ASKED, (15, SERVER): b"\1\0" + headers(*OK)},
        [error(CLIENT, 15, ID)],
    ),
    # (6.1)
    Row(
        "a-bidirectional-stream-of-the-server",
        {**CONTROLS, **ASKED, (1, SERVER): headers(*GET)},
        [error(CLIENT, 1, CREATION)],
    ),
    # (RFC 9297, section 2.1)
    Row(
        "a-datagram-without-a-session",
        {**OPEN, ("datagrams", SERVER): b"\x40"},
        [error(CLIENT, "datagram", DATAGRAM)],
    ),
    # (RFC 9204, section 3.2.3)
    Row(
        "a-table-that-is-not-allowed",
        {**CONTROLS, **ASKED, (6, CLIENT): SET_CAPACITY},
        [error(SERVER, 6, ENCODER)],
    ),
    # (RFC 9204, sections 2.2.3 and 4.5.1.1)
    Row(
        "an-entry-that-is-not-there",
        with_table(
            CLIENT,
            inserted(b"a"),
            {(0, CLIENT): frame(0x01, b"\2\0" + section(*GET)[2:] + b"\x81")},
        ),
        [error(SERVER, 0, UNDECODABLE)],
    ),
    # (RFC 9204, section 4.4.3)
    Row(
        "an-acknowledgment-of-nothing",
        {**CONTROLS, **ASKED, (7, SERVER): b"\2", (10, CLIENT): b"\3\x01"},
        [error(SERVER, 10, DECODER)],
    ),
]

# Errors of a stream, and malformed messages.
STREAM = [
    # (4.1)
    Row(
        "an-empty-request",
        {**CONTROLS, (0, CLIENT): b""},
        [reset(SERVER, 0, INCOMPLETE)],
        options="",
    ),
    # (4.2)
    Row(
        "a-response-with-a-malformed-field",
        {**CONTROLS, **ASKED, (0, SERVER): headers(*OK, (b"X-A", b"1"))},
        [malformed(CLIENT, 0)],
    ),
    # (4.1.2)
    Row(
        "a-response-that-is-too-short",
        {**CONTROLS, **ASKED, (0, SERVER): headers(*OK, (b"content-length", b"5")) + data(b"abc")},
        [malformed(CLIENT, 0)],
        options="",
    ),
    # (RFC 9220, section 3; RFC 8441, section 4)
    Row(
        "a-session-that-settings-do-not-allow",
        {**OPEN, (3, SERVER): control()},
        [malformed(SERVER, 0)],
    ),
    # (webtrans, section 4.5)
    Row(
        "a-stream-of-a-session-that-is-refused",
        {**OPEN, (0, SERVER): headers((b":status", b"404")), (6, CLIENT): member(0)},
        [reset(SERVER, 6, NO_SESSION)],
    ),
    Row(
        "a-stream-of-a-request",
        {**CONTROLS, **ASKED, (6, CLIENT): member(0)},
        [reset(SERVER, 6, NO_SESSION)],
    ),
    # (webtrans, section 5)
    Row(
        "bytes-after-the-close",
        {
            **OPEN,
            (0, CLIENT): headers(*SESSION)
            + data(CLOSE + b"\4\0\0\0\0")
            + data(capsule(0x78AE, b"")),
        },
        [reset(SERVER, 0, MESSAGE)],
    ),
    *(
        Row(
            f"a-byte-after-the-close-{name}",
            {**OPEN, (0, end): OPEN[0, end] + content},
            [("closed session", by, 0, None), reset(by, 0, MESSAGE)],
            options=options,
        )
        for end, by in ((CLIENT, SERVER), (SERVER, CLIENT))
        for options in ("--open", "")
        for name, content in (
            (f"of-the-{end}{options}", data(BYE + b"h")),
            (f"of-the-{end}-in-another-frame{options}", data(BYE) + data(b"h")),
        )
    ),
    Row(
        "a-byte-after-the-closes-of-both-ends",
        {**OPEN, **{(0, end): OPEN[0, end] + data(BYE + b"h") for end in (CLIENT, SERVER)}},
        [
            ("closed session", SERVER, 0, None),
            reset(SERVER, 0, MESSAGE),
            ("closed session", CLIENT, 0, None),
            reset(CLIENT, 0, MESSAGE),
        ],
    ),
    # (RFC 9297, section 2)
    Row(
        "a-datagram-of-a-request",
        {**CONTROLS, **ASKED, ("datagrams", CLIENT): b"\0abc"},
        [reset(SERVER, 0, DATAGRAM)],
    ),
    # (4.4: the bytes of a tunnel are the application's)
    Row(
        "trailers-in-a-tunnel",
        {
            **CONTROLS,
            (0, CLIENT): headers(*CONNECT) + headers((b"x", b"y")),
            (0, SERVER): headers(*OK),
        },
        [error(SERVER, 0, UNEXPECTED)],
    ),
    # one fault of each end
    Row(
        "faults-of-both-ends",
        {**CONTROLS, (0, CLIENT): headers(*GET[1:]), (0, SERVER): headers((b":status", b"99"))},
        [malformed(SERVER, 0), malformed(CLIENT, 0)],
    ),
]

ROWS = [*GOOD, *NOTED, *CONNECTION, *STREAM]
