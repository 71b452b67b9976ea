"""Peers with faults: what each sends, and the code by which the server has to answer.

The codes are those that RFC 9114, RFC 9204, RFC 9297 and draft-ietf-webtrans-http3-02 name. Where
the fault is one of frames alone, the same bytes are given to the program wt_frames, which names the
code too: with its arguments in `listing`.
"""
from __future__ import annotations

import subprocess
from dataclasses import dataclass

from client import SETTINGS, Client, client_of, frame, number, section, session_lines
from client import session_request

BI, UNI, CONTROL = "bidirectional", "unidirectional", "control"
SESSION, DATAGRAM = "session", "datagram"
REQUEST = session_request(b"/echo")


@dataclass
class Row:
    """`data` on a stream of this kind; `ends_stream` if it is the stream alone that has to end."""

    name: str
    kind: str
    data: bytes
    code: int
    listing: tuple[str, str] | None = None
    end: bool = False
    ends_stream: bool = False


def settings(*pairs: tuple[int, int]) -> bytes:
    return frame(0x04, b"".join(number(n) + number(v) for n, v in pairs))


def without(name: bytes) -> bytes:
    """A session's request without one of its lines."""
    return frame(0x01, section(*(line for line in session_lines(b"/echo") if line[0] != name)))


CONTROLLED, REMOTE, ENDED = ("buffer", "control"), ("buffer", "bi-remote"), ("stepped", "7")
ROWS = [
    Row("a setting of HTTP/2", CONTROL, settings((0x02, 0)), 0x109),
    Row("a setting that is repeated", CONTROL, settings((0x08, 1), (0x08, 1)), 0x109),
    Row("a setting without its value", CONTROL, frame(0x04, b"\x08"), 0x106),
    Row("a control stream that does not begin with settings", CONTROL, frame(0x21, b""), 0x10A),
    Row("settings twice", CONTROL, settings((0x08, 1)) * 2, 0x105),
    Row("DATA on a control stream", CONTROL, settings() + frame(0x00, b"x"), 0x105, CONTROLLED),
    Row("HEADERS on a control stream", CONTROL, settings() + frame(0x01, b"x"), 0x105, CONTROLLED),
    Row("a control stream that ends", CONTROL, settings((0x08, 1)), 0x104, end=True),
    Row("a second control stream", UNI, SETTINGS, 0x103),
    Row("an insertion into a table of no capacity", UNI, b"\x02\x41a\x01b", 0x201),
    Row("SETTINGS on a request stream", BI, settings(), 0x105, REMOTE),
    Row("DATA before HEADERS", BI, frame(0x00, b"x"), 0x105),
    Row("SETTINGS in a session", SESSION, settings(), 0x105, REMOTE),
    Row("a WebTransport frame in a session", SESSION, number(0x41) + b"\x00", 0x106, REMOTE),
    Row("a request above 4096 bytes", BI, number(0x01) + number(4097), 0x100, ends_stream=True),
    Row("settings above 4096 bytes", CONTROL, number(0x04) + number(4097), 0x107, CONTROLLED),
    Row("a frame that is cut by the end", BI, b"\x01\x28\x00\x00\x50", 0x106, ENDED, end=True),
    Row("a DATA frame that is cut", SESSION, b"\x00\x05a", 0x106, ENDED, end=True),
    Row("a session ID of a server's stream", BI, number(0x41) + b"\x01", 0x108, REMOTE),
    Row("a session ID of a unidirectional stream", UNI, number(0x54) + b"\x02", 0x108),
    Row("a datagram with no session ID", DATAGRAM, b"", 0x33),
    Row("a field line of the dynamic table", BI, frame(0x01, b"\x00\x00\x80"), 0x200),
    Row("a request without a path", BI, without(b":path"), 0x10E, ends_stream=True),
    Row("a request without a scheme", BI, without(b":scheme"), 0x10E, ends_stream=True),
    Row("a stream that ends before its request", BI, b"", 0x10D, end=True, ends_stream=True),
    Row(
        "a close capsule of 3 bytes",
        SESSION,
        frame(0x00, b"\x68\x43\x03abc"),
        0x10E,
        ends_stream=True,
    ),
    Row(
        "a close capsule of 1029 bytes",
        SESSION,
        frame(0x00, b"\x68\x43\x44\x05"),
        0x10E,
        ends_stream=True,
    ),
    Row(
        "DATA after the close capsule",
        SESSION,
        frame(0x00, b"\x68\x43\x04\0\0\0\0") + frame(0x00, b"x"),
        0x10E,
        ends_stream=True,
    ),
    Row(
        "a stream before its session, of 4112 bytes",
        BI,
        number(0x41) + number(400) + bytes(4112),
        0x3994BD84,
        ends_stream=True,
    ),
    Row("an unknown type of stream", UNI, number(0x1F) + b"x", 0x103, ends_stream=True),
    Row(
        "a stream of a session that is over",
        SESSION,
        frame(0x00, b"\x68\x43\x04\0\0\0\0"),
        0x170D7B68,
        ends_stream=True,
    ),
]

# What the codec alone does not read, and the connection does.
LISTED = [
    Row("a request above 4096 bytes", BI, number(0x01) + number(4097), 0x107, REMOTE),
    Row("DATA above 4096 bytes", SESSION, number(0x00) + number(4097), 0x107, REMOTE),
]


def listed(program: str, row: Row) -> int | None:
    """The code that wt_frames names for these bytes, or None."""
    data = (REQUEST if row.kind == SESSION else b"") + row.data
    done = subprocess.run([program, *row.listing], input=data, capture_output=True, check=False)
    last = done.stdout.decode().strip().split("\n")[-1].split(" ")
    return int(last[2]) if last[0] == "FAULT" else None


async def provoke(client: Client, row: Row) -> int | None:
    """Sends the bytes of a row; returns the number of the stream that has the fault."""
    if row.kind == CONTROL:
        return client.open(b"\x00" + row.data, row.end, one_way=True)
    if row.kind == DATAGRAM:
        return client.send_datagram(row.data)
    if row.kind in (BI, UNI):
        return client.open(row.data, row.end, one_way=row.kind == UNI)
    session = await client.open_session(b"/echo")
    client.send(session, row.data, row.end)
    if row.code != 0x170D7B68:
        return session
    await client.until(lambda: client.stream(session).is_ended)
    return client.open(number(0x41) + number(session) + b"late")


async def answer(port: int, row: Row) -> tuple:
    """('connection' or 'stream', code, others go on): what the server did about a row."""
    async with client_of(port, b"" if row.kind == CONTROL else SETTINGS) as client:
        neighbour = await client.open_session(b"/echo") if row.ends_stream else None
        stream_id = await provoke(client, row)
        stream = client.stream(stream_id)

        def has_ended():
            return {client.closed_by, stream.reset, stream.stopped} != {None}

        await client.until(has_ended)
        if client.closed_by is not None:
            return "connection", client.closed_by
        codes = {code for code in (stream.reset, stream.stopped) if code is not None}
        goes_on = await client.echoes(neighbour, b"still here") if row.ends_stream else False
        return ("stream" if goes_on else "stream, and others do not go on"), *sorted(codes)


async def endless_frame(port: int) -> str:
    """An unknown frame of 2^40 bytes, of which a megabyte comes: whether the server keeps the
    connection, answers a session beside it, and goes on when the stream is reset."""
    async with client_of(port) as client:
        session = await client.open_session(b"/echo")
        stream = client.open(number(0x0F) + number(1 << 40))
        for _ in range(16):
            client.send(stream, bytes(65536))
            if not await client.echoes(session, b"beside it"):
                return "no echo"
        client.reset(stream, 0x10C)
        return "goes on" if await client.echoes(session, b"after it") else "no echo after it"
