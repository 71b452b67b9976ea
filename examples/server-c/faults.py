#!/usr/bin/env python3
"""Peers with faults: what each sends to the server, and the code by which it has to answer.

    faults.py PORT

The client is that of examples/browser, over aioquic, which writes any bytes. Its rows are played
too, but for those of that server's own limits. The codes are those that RFC 9114, RFC 9204, RFC
9297 and draft-ietf-webtrans-http3-02 name. Ends with 'N passed, M failed'.
"""
import asyncio
import os
import sys

sys.path.insert(0, os.path.join(os.path.dirname(os.path.abspath(__file__)), "..", "browser"))
import faults  # noqa: E402
import tables  # noqa: E402
from client import (  # noqa: E402
    client_of,
    close_capsule,
    frame,
    number,
    section,
    session_request,
)
from faults import BI, CONTROL, DATAGRAM, SESSION, UNI, Row, settings  # noqa: E402

GONE, REJECTED = 0x170D7B68, 0x3994BD84
# What the other server does at limits of its own.
ITS_LIMITS = {
    "a request above 4096 bytes",
    "DATA above 4096 bytes",
    "a stream before its session, of 4112 bytes",
}
# (the server answers a POST at its end)
REQUEST = [
    (b":method", b"POST"),
    (b":scheme", b"https"),
    (b":authority", b"127.0.0.1"),
    (b":path", b"/"),
]


def request(*lines):
    return frame(0x01, section(*lines))


def malformed(name, *lines, content=b""):
    return Row(name, BI, request(*lines) + content, 0x10E, end=True, ends_stream=True)


ROWS = [
    # RFC 9114, section 7.2.8: frames of HTTP/2
    *(
        Row(f"a frame of HTTP/2, {kind:#x}", CONTROL, settings() + frame(kind, b""), 0x105)
        for kind in (0x02, 0x06, 0x08, 0x09)
    ),
    Row("PUSH_PROMISE of a client", BI, frame(0x05, b"\0\0\0"), 0x105),
    Row("MAX_PUSH_ID on a request stream", BI, frame(0x0D, b"\0"), 0x105),
    Row(
        "a push ID that shrinks",
        CONTROL,
        settings() + frame(0x0D, b"\7") + frame(0x0D, b"\6"),
        0x108,
    ),
    Row("CANCEL_PUSH of no push", CONTROL, settings() + frame(0x03, b"\0"), 0x108),
    Row(
        "a GOAWAY that grows",
        CONTROL,
        settings() + frame(0x07, b"\0") + frame(0x07, b"\4"),
        0x108,
    ),
    Row("a GOAWAY of two bytes for one", CONTROL, settings() + frame(0x07, b"\0\0"), 0x106),
    Row("H3_DATAGRAM with the value 2", CONTROL, settings((0x33, 2)), 0x109),
    Row("a push stream of a client", UNI, b"\x01\x00", 0x103),
    Row("settings of 4097 bytes", CONTROL, number(0x04) + number(4097), 0x107),
    # RFC 9204, sections 4.3 and 4.4
    Row("a table's capacity above that which was allowed", UNI, b"\x02\x3f\xe2\x1f", 0x201),
    Row("an entry of 33 bytes in a table of 32", UNI, b"\x02\x3f\x01\x41a\x00", 0x201),
    Row("a duplicate of no entry", UNI, b"\x02\x00", 0x201),
    Row("an acknowledgment of no section", UNI, b"\x03\x80", 0x202),
    Row("an increment by 0", UNI, b"\x03\x00", 0x202),
    Row("an increment above what was inserted", UNI, b"\x03\x01", 0x202),
    Row("an encoder stream that ends", UNI, b"\x02", 0x104, end=True),
    Row("a decoder stream that ends", UNI, b"\x03", 0x104, end=True),
    # RFC 9114, sections 4.1.2 to 4.3
    malformed("a name in upper case", *REQUEST, (b"X-Name", b"1")),
    malformed("a value with a line feed", *REQUEST, (b"x-name", b"a\nb")),
    malformed("a field of a connection", *REQUEST, (b"connection", b"close")),
    malformed("te: gzip", *REQUEST, (b"te", b"gzip")),
    malformed("a late pseudo-header field", *REQUEST[:3], (b"x-name", b"1"), REQUEST[3]),
    malformed("a pseudo-header field twice", *REQUEST, REQUEST[3]),
    malformed("an unknown pseudo-header field", *REQUEST, (b":name", b"1")),
    malformed("a response's pseudo-header field", *REQUEST, (b":status", b"200")),
    malformed("an empty path", *REQUEST[:3], (b":path", b"")),
    malformed("too much content", *REQUEST, (b"content-length", b"1"), content=frame(0, b"ab")),
    malformed("too little content", *REQUEST, (b"content-length", b"3"), content=frame(0, b"ab")),
    Row("HEADERS after the trailers", BI, request(*REQUEST) + request() * 2, 0x105),
    # RFC 9297, section 2.1
    Row("a datagram whose number is 2^60", DATAGRAM, number(1 << 60), 0x33),
    # WebTransport over HTTP/3
    Row(
        "a close capsule whose reason is not UTF-8",
        SESSION,
        close_capsule(0, b"\xff"),
        0x10E,
        ends_stream=True,
    ),
]
# A capsule that is malformed makes its message malformed (RFC 9297, section 3.3).
CODES = {"a close capsule of 3 bytes": 0x10E, "a close capsule of 1029 bytes": 0x10E}


async def rejects_early_streams(port):
    """17 streams before their session: the last one is rejected, and the session goes on."""
    async with client_of(port) as client:
        early = [client.open(number(0x41) + number(400) + b"early") for _ in range(17)]
        last = client.stream(early[-1])
        await client.until(lambda: last.reset is not None and last.stopped is not None)
        session = await client.open_session(b"/echo")
        goes_on = await client.echoes(session, b"still here")
        return last.reset, last.stopped, client.stream(early[0]).reset, goes_on


async def keeps_early_streams(port):
    """A stream that overtakes the request of its session, which has a lower number: it is kept."""
    async with client_of(port) as client:
        session = client.open(b"")
        early = client.open(number(0x41) + number(session) + b"early", end=True)
        await asyncio.sleep(0.1)
        client.send(session, session_request(b"/echo"))
        await client.until(lambda: client.stream(early).is_ended)
        return client.take(early).data


async def ends_streams(port, end):
    """What becomes of an open stream of a session that is ended so: its codes, and whether another
    session goes on."""
    async with client_of(port) as client:
        neighbour = await client.open_session(b"/echo")
        session = await client.open_session(b"/echo")
        stream = client.open(number(0x41) + number(session) + b"open")
        await client.until(lambda: client.stream(stream).data)
        end(client, session)
        saw = client.stream(stream)
        await client.until(lambda: saw.reset is not None and saw.stopped is not None)
        return saw.reset, saw.stopped, await client.echoes(neighbour, b"still here")


def reset(client, stream):
    client._quic.reset_stream(stream, 0x10C)
    client.transmit()


ENDS = {
    "a capsule": lambda client, session: client.send(session, close_capsule(7), end=True),
    "its end": lambda client, session: client.send(session, b"", end=True),
    "a capsule with a fault": lambda client, session: client.send(
        session, frame(0x00, b"\x68\x43\x03abc")
    ),
    "a reset": reset,
}


async def resets_control(port):
    """The control stream is reset after its SETTINGS: the code of the connection."""
    async with client_of(port, b"") as client:
        reset(client, client.open(b"\x00" + settings((0x08, 1)), one_way=True))
        await client.until(lambda: client.closed_by is not None)
        return client.closed_by


async def stops_control(port):
    """The server's control stream is stopped after its SETTINGS: the code of the connection."""
    async with client_of(port) as client:
        await client.until(lambda: client.stream(3).data)  # its first unidirectional one
        client.stop(3, 0x10C)
        await client.until(lambda: client.closed_by is not None)
        return client.closed_by


async def stops_echo(port):
    """The echo of a stream is stopped: its code (RFC 9000, section 3.5: that of STOP_SENDING), and
    whether its session goes on."""
    async with client_of(port) as client:
        session = await client.open_session(b"/echo")
        stream = client.open(number(0x41) + number(session) + b"open")
        await client.until(lambda: client.stream(stream).data)
        client.stop(stream, 0x10C)
        await client.until(lambda: client.stream(stream).reset is not None)
        client.send(stream, b"more", end=True)
        return client.stream(stream).reset, await client.echoes(session, b"still here")


async def refuses_large_fields(port):
    """A request above 16384 bytes: whether it has the status 431 (RFC 6585, section 5), and the
    connection goes on."""
    async with client_of(port) as client:
        session = await client.open_session(b"/echo")
        stream = client.open(request(*REQUEST, (b"x-name", b"x" * 17000)), end=True)
        await client.until(lambda: client.stream(stream).is_ended)
        has_431 = b"\x5f\x09\x03431" in client.stream(stream).data  # the name of entry 24
        return has_431, await client.echoes(session, b"still here")


TUNNEL = [
    (b":method", b"CONNECT"),
    (b":scheme", b"https"),
    (b":authority", b"127.0.0.1"),
    (b":path", b"/echo"),
    (b":protocol", b"websocket"),
]


async def refuses_tunnels(port):
    """A CONNECT for a protocol that the server does not know: whether it has the status 501 (RFC
    9220, section 3; in Huffman text), and the connection goes on."""
    async with client_of(port) as client:
        session = await client.open_session(b"/echo")
        stream = client.open(request(*TUNNEL))
        await client.until(lambda: client.stream(stream).is_ended)
        has_501 = b"\x5f\x09\x82\x6c\x01" in client.stream(stream).data
        return has_501, await client.echoes(session, b"still here")


async def reads_long_frames(port):
    """A POST of 100,000 bytes in one DATA frame: what the answer's content is."""
    async with client_of(port) as client:
        stream = client.open(request(*REQUEST) + frame(0x00, bytes(100_000)), end=True)
        await client.until(lambda: client.stream(stream).is_ended)
        return client.stream(stream).data[-13:]


# A table of 4096 bytes with the entry :authority = 127.0.0.1, and a GET for / with it (RFC 9204,
# sections 3.2.2, 4.3 and 4.5).
INSERTION = b"\x02\x3f\xe1\x1f\xc0\x09127.0.0.1"
WITH_ENTRY = frame(0x01, b"\x02\x00\xd1\xd7\xc1\x80")
MAY_WAIT = 16


async def answers_blocked(port):
    """Requests that wait for an entry, as many as may: whether one was answered before it came, and
    whether all are answered then."""
    async with client_of(port) as client:
        asked = [client.open(WITH_ENTRY, end=True) for _ in range(MAY_WAIT)]
        await asyncio.sleep(0.2)
        early = any(client.stream(one).data for one in asked)
        client.open(INSERTION, one_way=True)
        return early, await client.until(lambda: all(client.stream(one).is_ended for one in asked))


async def blocks_too_many(port):
    """One request more waits than may: the code of the connection."""
    async with client_of(port) as client:
        for _ in range(MAY_WAIT + 1):
            client.open(WITH_ENTRY, end=True)
        await client.until(lambda: client.closed_by is not None)
        return client.closed_by


class Report:
    """Counts what was checked."""

    def __init__(self):
        self.passed = self.failed = 0

    def check(self, name, saw, wanted):
        holds = saw == wanted
        self.passed, self.failed = self.passed + holds, self.failed + (not holds)
        if not holds:
            print(f"FAILED: {name}: {saw!r} and not {wanted!r}", flush=True)


async def main(port):
    report = Report()
    async with client_of(port) as bystander:
        session, goes_on = await bystander.open_session(b"/echo"), True
        for row in [row for row in faults.ROWS if row.name not in ITS_LIMITS] + ROWS:
            code = CODES.get(row.name, row.code)
            wanted = ("stream" if row.ends_stream else "connection", code)
            report.check(row.name, await faults.answer(port, row), wanted)
            goes_on = goes_on and await bystander.echoes(session, b"still here")
        for name, end in ENDS.items():
            saw = await ends_streams(port, end)
            report.check(f"a session's streams after {name}", saw, (GONE, GONE, True))
        saw = await rejects_early_streams(port)
        report.check("17 streams before their session", saw, (REJECTED, REJECTED, None, True))
        saw = await keeps_early_streams(port)
        report.check("a stream before its session", saw, b"early")
        report.check("a control stream that is reset", await resets_control(port), 0x104)
        report.check("a control stream that is stopped", await stops_control(port), 0x104)
        report.check("an echo that is stopped", await stops_echo(port), (0x10C, True))
        report.check("requests that wait for an entry", await answers_blocked(port), (False, True))
        report.check("too many that wait for an entry", await blocks_too_many(port), 0x200)
        for name, action, wanted in tables.ROWS:
            report.check(f"table: {name}", await action(port), wanted)
            goes_on = goes_on and await bystander.echoes(session, b"still here")
        report.check("431", await refuses_large_fields(port), (True, True))
        report.check("501", await refuses_tunnels(port), (True, True))
        report.check("a POST in one frame", await reads_long_frames(port), b"100000 bytes\n")
        saw = await faults.endless_frame(port)
        report.check("an unknown frame of 2^40 bytes", saw, "goes on")
        goes_on = goes_on and await bystander.echoes(session, b"still here")
        report.check("a session of another connection goes on", goes_on, True)
    print(f"{report.passed} passed, {report.failed} failed")
    return report.failed > 0


if __name__ == "__main__":
    sys.exit(asyncio.run(main(int(sys.argv[1]))))
