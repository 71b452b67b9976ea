"""Clients at a limit of the server: what they send waits there, and is served once the rest comes.

Each function of ROWS returns how many bytes the server held of the stream that waited, and whether
it served that stream. Numbers are in their widest form (RFC 9000, section 16), so that the last
byte of a frame or capsule comes after as many as there can be. What is beyond a limit is in
faults.py.
"""
from __future__ import annotations

import asyncio
import time

from client import Client, client_of, frame, log_of, number, section, session_lines

PAYLOAD = 4096  # the most bytes of a frame's payload
VALUE = 1028  # the most bytes of a close capsule's value: a code and a reason
FRAME = 8 + 8 + PAYLOAD - 1  # a frame without its last byte
CAPSULE = VALUE - 1  # a close capsule without its last byte: the type and the length are not held
STREAMS = 16  # streams that wait for the request of their session
REJECTED = 0x3994BD84  # BUFFERED_STREAM_REJECTED of draft-ietf-webtrans-http3-02
PATIENCE = 10  # seconds


def wide(value: int) -> bytes:
    """A variable-length integer in 8 bytes."""
    return (3 << 62 | value).to_bytes(8, "big")


def wide_frame(kind: int, payload: bytes) -> bytes:
    """A frame, or a capsule, with 16 bytes before its payload."""
    return wide(kind) + wide(len(payload)) + payload


async def held(port: int, wanted: int) -> int | None:
    """Waits until the server holds so many bytes of a stream; returns how many it does hold."""
    deadline, saw = time.monotonic() + PATIENCE, None
    while saw != wanted and time.monotonic() < deadline:
        saw = (await asyncio.to_thread(log_of, port))["held"]
        await asyncio.sleep(0.05)
    return saw


async def send_in_pieces(client: Client, stream: int, data: bytes) -> None:
    """Sends bytes in pieces, each in a packet of its own: the first twenty of a byte each."""
    cuts = [*range(20), *range(20, len(data), 700), len(data)]
    for start, stop in zip(cuts, cuts[1:]):
        client.send(stream, data[start:stop])
        await asyncio.sleep(0.002)


async def long_request(port: int) -> tuple[int | None, bool]:
    """A HEADERS frame that requests a session."""
    lines = session_lines(b"/echo")
    spare = PAYLOAD - len(section(*lines, (b"x-filler", b"f" * 3000)))
    request = wide_frame(0x01, section(*lines, (b"x-filler", b"f" * (3000 + spare))))
    async with client_of(port) as client:
        session = client.open(b"")
        await send_in_pieces(client, session, request[:-1])
        saw = await held(port, len(request) - 1)
        client.send(session, request[-1:])
        return saw, await client.echoes(session, b"after a long request")


async def long_settings(port: int) -> tuple[int | None, bool]:
    """A SETTINGS frame: H3_DATAGRAM and ENABLE_WEBTRANSPORT, one setting that is reserved for
    exercise, which the server counts, and others that are unknown to it."""
    unknown = [n for n in range(0x10000, 0x10200) if (n - 0x21) % 0x1F != 0]
    names = [0x33, 0x2B603742, 0x21 + 0x1F * 500, *unknown][: PAYLOAD // 16]
    settings = wide_frame(0x04, b"".join(wide(name) + wide(1) for name in names))

    def count() -> int:
        return log_of(port)["counts"].get("reserved setting", 0)

    before = count()
    async with client_of(port, b"") as client:
        control = client.open(b"\x00", one_way=True)
        await send_in_pieces(client, control, settings[:-1])
        saw, early = await held(port, len(settings) - 1), count() - before
        client.send(control, settings[-1:])
        goes_on = await client.echoes(await client.open_session(b"/echo"), b"after long settings")
        return saw, goes_on and (early, count() - before) == (0, 1)


async def long_close(port: int) -> tuple[int | None, bool]:
    """A close capsule in two DATA frames, and between them another frame."""
    reason, path = b"r" * (VALUE - 4), "/echo?long-close"
    capsule, other = wide_frame(0x2843, bytes(4) + reason), wide_frame(0x21, bytes(PAYLOAD))
    async with client_of(port) as client:
        session = await client.open_session(path.encode())
        await send_in_pieces(client, session, frame(0x00, capsule[:-1]) + other[:-1])
        saw = await held(port, CAPSULE)
        client.send(session, other[-1:] + frame(0x00, capsule[-1:]), end=True)
        await client.until(lambda: client.stream(session).is_ended)
    closed = [row[2:] for row in log_of(port)["rows"] if row[:2] == [path, "closed"]]
    return saw, closed == [[0, reason.decode()]]


async def early_stream(port: int) -> tuple[int | None, bool]:
    """A stream of a session whose request comes later."""
    text = bytes(i % 251 for i in range(FRAME))
    async with client_of(port) as client:
        stream = client.open(b"")
        await send_in_pieces(client, stream, number(0x41) + number(4) + text)
        saw = await held(port, len(text))
        await client.open_session(b"/echo")
        client.send(stream, b"", end=True)
        await client.until(lambda: client.stream(stream).is_ended)
        return saw, client.stream(stream).data == text


async def early_streams(port: int) -> tuple[int | None, bool]:
    """Streams of a session whose request comes later: one more than may wait is rejected."""
    async with client_of(port) as client:
        head = number(0x41) + number(4 * (STREAMS + 1))
        streams = [client.open(head + b"early", end=True) for _ in range(STREAMS + 1)]
        *early, last = [client.stream(stream) for stream in streams]
        await client.until(lambda: None not in (last.reset, last.stopped))
        saw = await held(port, len(b"early"))
        await client.open_session(b"/echo")
        await client.until(lambda: all(stream.is_ended for stream in early))
        served = all(stream.data == b"early" for stream in early)
        return saw, served and (last.reset, last.stopped, last.data) == (REJECTED, REJECTED, b"")


ROWS = [  # what it is, the function, how many bytes the server has to hold
    ("a request of 4096 bytes", long_request, FRAME),
    ("settings of 4096 bytes", long_settings, FRAME),
    ("a close capsule of 1028 bytes beside a frame of 4096", long_close, CAPSULE),
    ("a stream before its session, of 4111 bytes", early_stream, FRAME),
    ("16 streams before their session, and one more", early_streams, len(b"early")),
]
