"""Rules of a whole connection: peers that break one, and others that only seem to.

FAULTS are rows as in faults.py. Each function of ROWS returns what the client saw. Sections without
a number of an RFC are those of draft-ietf-webtrans-http3-07.
"""
from __future__ import annotations

import asyncio
from functools import partial
from typing import Awaitable, Callable

from client import SETTINGS, STATUS_200, Client, ask, client_of, close_capsule, frame, log_of
from client import number, section, session_lines, session_request
from faults import BI, CONTROL, SESSION, UNI, Row, settings
from limits import STREAMS, held

# The line `:status` in plain text or in the Huffman code (RFC 9204, section 4.5.4; RFC 7541,
# appendix B).
STATUSES = {
    431: (b"\x5f\x09\x03431", b"\x5f\x09\x83\x69\x90\xff"),
    501: (b"\x5f\x09\x03501", b"\x5f\x09\x82\x6c\x01"),
}
GONE, REJECTED = 0x170D7B68, 0x3994BD84  # SESSION_GONE, BUFFERED_STREAM_REJECTED
CANCELLED, INCOMPLETE, DATAGRAM = 0x10C, 0x10D, 0x33
ECHO, DENIED = session_request(b"/echo"), session_request(b"/deny/404")
LINES = [
    (b":method", b"POST"),
    (b":scheme", b"https"),
    (b":authority", b"127.0.0.1"),
    (b":path", b"/"),
]
TUNNEL = [(b":method", b"CONNECT"), (b":authority", b"127.0.0.1:443")]
TRAILERS = frame(0x01, section((b"x-trailer", b"x")))


def post(*lines: tuple[bytes, bytes]) -> bytes:
    """A request with content."""
    return frame(0x01, section(*LINES, *lines))


def after_settings(data: bytes) -> bytes:
    """A control stream without its type."""
    return settings((0x08, 1)) + data


def of_stream(name: str, kind: str, data: bytes, code: int = 0x10E, end: bool = False) -> Row:
    """A fault of a stream, which leaves the connection."""
    return Row(name, kind, data, code, end=end, ends_stream=True)


FAULTS = [
    # RFC 9114, section 6.2.2; RFC 9204, sections 4.4.1 and 4.4.3
    Row("a push stream of a client", UNI, b"\x01\x00", 0x103),
    Row("an acknowledgment of what was not inserted", UNI, b"\x03\x80", 0x202),
    Row("an insert count increment of 0", UNI, b"\x03\x00", 0x202),
    # RFC 9114, sections 5.2, 7.1 and 7.2
    Row("a GOAWAY that rises", CONTROL, after_settings(frame(7, b"\0") + frame(7, b"\4")), 0x108),
    Row("a GOAWAY without an ID", CONTROL, after_settings(frame(7, b"")), 0x106),
    Row(
        "a MAX_PUSH_ID that falls",
        CONTROL,
        after_settings(frame(0x0D, b"\4") + frame(0x0D, b"\0")),
        0x108,
    ),
    Row("a CANCEL_PUSH of no push", CONTROL, after_settings(frame(0x03, b"\0")), 0x108),
    Row("a PING frame of HTTP/2", CONTROL, after_settings(frame(0x06, bytes(8))), 0x105),
    # RFC 9297, section 2.1.1; RFC 8441, section 3
    Row("H3_DATAGRAM of 2", CONTROL, settings((0x33, 2)), 0x109),
    Row("ENABLE_CONNECT_PROTOCOL of 2", CONTROL, settings((0x08, 2)), 0x109),
    # RFC 9114, sections 4.1, 4.4 and 10.5
    Row("HEADERS after trailers", BI, post() + TRAILERS * 2, 0x105),
    Row("DATA after trailers", BI, post() + TRAILERS + frame(0x00, b"x"), 0x105),
    Row("HEADERS in a session", SESSION, TRAILERS, 0x105),
    Row("1,025 empty DATA frames", BI, post() + frame(0x00, b"") * 1025, 0x107),
    # section 4
    Row("a stream that names itself as its session", BI, number(0x41) + number(0), 0x108),
    # RFC 9114, sections 4.1.2, 4.2 and 4.3
    of_stream("a name in upper case", BI, post((b"X-Upper", b"x"))),
    of_stream("a field of HTTP/1.1 connections", BI, post((b"connection", b"close"))),
    of_stream("a value with a line feed", BI, post((b"x-value", b"a\nb"))),
    of_stream(
        "a pseudo-header field after others",
        BI,
        frame(0x01, section(*LINES[:3], (b"x-other", b"x"), LINES[3])),
    ),
    of_stream("a request with two paths", BI, post(LINES[3])),
    of_stream(
        "content above content-length", BI, post((b"content-length", b"1")) + frame(0x00, b"xx")
    ),
    of_stream(
        "content below content-length",
        BI,
        post((b"content-length", b"3")) + frame(0x00, b"xx"),
        end=True,
    ),
    # RFC 9297, section 3.3; section 5
    of_stream("a reason that is not UTF-8", SESSION, close_capsule(0, b"\xff")),
    of_stream("a DRAIN capsule with a value", SESSION, frame(0x00, number(0x78AE) + b"\1x")),
    of_stream("the end within a capsule", SESSION, frame(0x00, b"\x68\x43\x04\0"), end=True),
    of_stream("a frame after the close capsule", SESSION, close_capsule(0) + frame(0x21, b"x")),
]


async def answer(port: int, data: bytes, start: bytes = SETTINGS) -> int | None:
    """The status that answers a request, if a session of another connection goes on after it."""
    async with client_of(port) as neighbour, client_of(port, start) as client:
        session = await neighbour.open_session(b"/echo")
        stream = client.stream(client.open(data))
        await client.until(lambda: stream.is_ended)
        goes_on = await neighbour.echoes(session, b"still here")
        found = [code for code in STATUSES if any(line in stream.data for line in STATUSES[code])]
        return found[0] if found and goes_on else None


async def overtaking_stream(port: int) -> tuple[bytes, int | None]:
    """A stream of a session comes before its request, whose stream has a lower ID."""
    async with client_of(port) as client:
        client.send(4, number(0x41) + number(0) + b"early", end=True)
        await held(port, len(b"early"))
        client.send(0, ECHO)
        stream = client.stream(4)
        await client.until(lambda: stream.is_ended or stream.reset is not None)
        return stream.data, stream.reset


async def overtaking_one_way(port: int) -> bool:
    """The same in one direction, and beside it a session that was requested later."""
    async with client_of(port) as client:
        client.send(4, ECHO)
        head = number(0x54) + number(0)
        client.open(head + b"early", end=True, one_way=True)
        await held(port, len(b"early"))
        client.send(0, ECHO)
        return await client.until(lambda: client.one_way[head + b"early"])


async def overtaking_datagram(port: int) -> bool:
    """A datagram comes before the request of its session. QUIC may lose it, so there are five."""
    async with client_of(port) as client:
        client.send(4, ECHO)
        for _ in range(5):
            client.send_datagram(number(0) + b"early")
        await client.until(lambda: any(line in client.stream(4).data for line in STATUS_200))
        client.send(0, ECHO)
        return await client.until(lambda: client.datagrams[number(0) + b"early"])


async def request_before_settings(port: int) -> tuple[bool, bool]:
    """A session is requested before SETTINGS: whether it is answered before them, and after."""
    async with client_of(port, b"") as client:
        stream = client.stream(client.open(ECHO))
        before = await client.until(lambda: stream.data, 0.5)
        client.open(SETTINGS, one_way=True)
        return before, await client.until(lambda: any(line in stream.data for line in STATUS_200))


async def goes_on(port: int, start: bytes, data: bytes = b"") -> bool:
    """Whether sessions go on after a control stream, and after bytes on another stream."""
    async with client_of(port, start) as client:
        if data:
            client.open(data, one_way=True)
        return await client.echoes(await client.open_session(b"/echo"), b"after it")


async def long_content(port: int) -> bool:
    """A request with 100,000 bytes in one DATA frame."""
    async with client_of(port) as client:
        stream = client.open(post() + frame(0x00, bytes(100_000)), end=True)
        await client.until(lambda: client.stream(stream).is_ended)
        return client.stream(stream).data.endswith(ask(port, "/"))


async def head(port: int) -> bool:
    """Whether the answer to a request with HEAD is HEADERS alone (RFC 9110, section 9.3.2)."""
    async with client_of(port) as client:
        request = frame(0x01, section((b":method", b"HEAD"), *LINES[1:]))
        stream = client.stream(client.open(request, end=True))
        await client.until(lambda: stream.is_ended)
        return stream.data[:1] == b"\x01" and len(stream.data) == 2 + stream.data[1]


async def long_capsule(port: int) -> bool:
    """An unknown capsule of 6,000 bytes in one DATA frame, and then one with a datagram."""
    async with client_of(port) as client:
        session = await client.open_session(b"/echo")
        unknown = number(0x29 * 7 + 0x17) + number(6000) + bytes(6000)
        client.send(session, frame(0x00, unknown + b"\x00\x05hello"))
        return await client.until(lambda: client.datagrams[number(session // 4) + b"hello"])


async def refused(port: int, request: bytes) -> tuple[int | None, bool]:
    """What resets a stream whose session is a request that opened none; whether others go on."""
    async with client_of(port) as client:
        session = await client.open_session(b"/echo")
        other = client.open(request)
        await client.until(lambda: client.stream(other).data, 0.5)
        stream = client.stream(client.open(number(0x41) + number(other) + b"x"))
        await client.until(lambda: stream.reset is not None)
        return stream.reset, await client.echoes(session, b"still here")


async def datagram_of_request(port: int) -> tuple[int | None, int | None, bool]:
    """A datagram for a request that has no use for one (RFC 9297, section 2)."""
    async with client_of(port) as client:
        session = await client.open_session(b"/echo")
        other = client.open(post() + b"\x00")
        await held(port, 1)
        client.send_datagram(number(other // 4) + b"x")
        stream = client.stream(other)
        await client.until(lambda: None not in (stream.reset, stream.stopped))
        return stream.reset, stream.stopped, await client.echoes(session, b"still here")


async def session_of_a_session(port: int) -> int | None:
    """A stream names as its session a stream that belongs to one itself."""
    async with client_of(port) as client:
        session = await client.open_session(b"/echo")
        stream = client.open(number(0x41) + number(session) + b"x")
        await client.until(lambda: client.stream(stream).data)
        client.open(number(0x41) + number(stream))
        await client.until(lambda: client.closed_by is not None)
        return client.closed_by


async def stopped_control_stream(port: int) -> int | None:
    """The client asks to stop the control stream of the server, which has the ID 3."""
    async with client_of(port) as client:
        await client.until(lambda: client.stream(3).data)
        client.stop(3, CANCELLED)
        await client.until(lambda: client.closed_by is not None)
        return client.closed_by


async def reset_before_headers(port: int) -> tuple[int | None, bool]:
    """A request is reset within its HEADERS (RFC 9114, section 4.1.1)."""
    async with client_of(port) as client:
        session = await client.open_session(b"/echo")
        stream = client.open(ECHO[:-1])
        await held(port, len(ECHO) - 1)
        client.reset(stream, CANCELLED)
        await client.until(lambda: client.stream(stream).reset is not None)
        return client.stream(stream).reset, await client.echoes(session, b"still here")


async def lost_session(port: int) -> tuple[int | None, list]:
    """The stream of a session is reset: what resets its streams, and what the server is told."""
    path = "/echo?lost"
    async with client_of(port) as client:
        session = await client.open_session(path.encode())
        stream = client.stream(client.open(number(0x41) + number(session) + b"x"))
        await client.until(lambda: stream.data)
        client.reset(session, CANCELLED)
        await client.until(lambda: stream.reset is not None)
        rows = await asyncio.to_thread(log_of, port)
    return stream.reset, [row[2:] for row in rows["rows"] if row[:2] == [path, "closed"]]


async def places_again(port: int) -> bool:
    """As many streams as may wait are reset, and as many others wait: all are served."""
    async with client_of(port) as client:
        head = number(0x41) + number(400)
        for stream in [client.open(head + b"first") for _ in range(STREAMS)]:
            await held(port, len(b"first"))
            client.reset(stream, CANCELLED)
        await held(port, 0)
        streams = [client.open(head + b"second!", end=True) for _ in range(STREAMS)]
        await held(port, len(b"second!"))
        client.send(400, ECHO)
        return await served(client, streams, b"second!")


async def served(client: Client, streams: list[int], text: bytes) -> bool:
    """Whether these streams come back with this text."""
    await client.until(lambda: all(client.stream(stream).is_ended for stream in streams))
    return all(client.stream(stream).data == text for stream in streams)


def connect(protocol: bytes) -> bytes:
    """An extended CONNECT request."""
    lines = dict(session_lines(b"/echo")) | {b":protocol": protocol}
    return frame(0x01, section(*lines.items()))


WITHOUT_DATAGRAMS = b"\x00" + settings((0x2B603742, 1))
GOAWAY_TWICE = SETTINGS + frame(0x07, b"\4") * 2
# More bytes than the server reads, and many lines of 92 bytes in one byte each (RFC 9114, section
# 4.2.2; RFC 9204, appendix A, 57).
LONG = frame(0x01, section(*LINES, (b"x-long", b"x" * 4096)))
MANY = frame(0x01, section(*LINES) + b"\xf9" * 2000)
Action = Callable[[int], Awaitable[object]]
ROWS: list[tuple[str, Action, object]] = [
    ("a stream that overtakes its CONNECT", overtaking_stream, (b"early", None)),
    ("a stream in one direction that overtakes its CONNECT", overtaking_one_way, True),
    ("a datagram that overtakes its CONNECT", overtaking_datagram, True),
    ("a CONNECT that overtakes SETTINGS", request_before_settings, (False, True)),
    ("streams that wait, in the places of others that were reset", places_again, True),
    ("a stream of a denied session", partial(refused, request=DENIED), (REJECTED, True)),
    ("a stream of a request", partial(refused, request=post()), (REJECTED, True)),
    ("a stream of a session's stream", session_of_a_session, 0x108),
    ("a datagram of a request", datagram_of_request, (DATAGRAM, DATAGRAM, True)),
    ("a control stream of the server that is stopped", stopped_control_stream, 0x104),
    ("a request that is reset within its HEADERS", reset_before_headers, (INCOMPLETE, True)),
    ("a session whose stream is reset", lost_session, (GONE, [[None, ""]])),
    ("content of 100,000 bytes in one frame", long_content, True),
    ("HEAD", head, True),
    ("an unknown capsule of 6,000 bytes, and a DATAGRAM capsule", long_capsule, True),
    ("GOAWAY twice with one ID", partial(goes_on, start=GOAWAY_TWICE), True),
    ("a stream cancellation", partial(goes_on, start=SETTINGS, data=b"\x03\x4c"), True),
    ("a session without datagrams", partial(answer, data=ECHO, start=WITHOUT_DATAGRAMS), 501),
    ("a plain CONNECT", partial(answer, data=frame(0x01, section(*TUNNEL))), 501),
    ("a CONNECT for another protocol", partial(answer, data=connect(b"other")), 501),
    ("a field section above 4096 bytes", partial(answer, data=LONG), 431),
    ("a field section of 2,000 lines", partial(answer, data=MANY), 431),
]
