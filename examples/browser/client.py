"""A client that writes its own bytes, for what a browser does not do: load, and peers with faults.

It takes nothing from the C library: its frames and field lines are written here, as literals. It is
aioquic's QUIC, and reads no more of HTTP/3 than where a frame ends.
"""
from __future__ import annotations

import asyncio
import json
import ssl
import time
import urllib.request
from collections import Counter
from typing import Any, AsyncContextManager, Callable

from aioquic.asyncio import QuicConnectionProtocol, connect
from aioquic.quic import events
from aioquic.quic.configuration import QuicConfiguration

Line = tuple[bytes, bytes]  # a name and a value

# The line `:status: 200` (RFC 9204, section 4.5 and appendix A): indexed, or with the name of entry
# 24 and the value in plain text or in the Huffman code.
STATUS_200 = (b"\xd9", b"\x5f\x09\x03200", b"\x5f\x09\x82\x10\x01")
PATIENCE = 10  # seconds


def ask(port: int, path: str, data: bytes | None = None) -> bytes:
    """Asks the server by plain HTTP; `data` is posted."""
    with urllib.request.urlopen(f"http://127.0.0.1:{port + 1}{path}", data, timeout=10) as answer:
        return answer.read()


def log_of(port: int) -> dict:
    """What the server saw so far."""
    return json.loads(ask(port, "/log"))


def number(value: int) -> bytes:
    """A variable-length integer (RFC 9000, section 16)."""
    for size, mark, bits in ((1, 0, 6), (2, 1, 14), (4, 2, 30), (8, 3, 62)):
        if value < 1 << bits:
            return (mark << (8 * size - 2) | value).to_bytes(size, "big")
    raise ValueError(value)


def frame(kind: int, payload: bytes) -> bytes:
    return number(kind) + number(len(payload)) + payload


def prefixed(mark: int, bits: int, value: int) -> bytes:
    """An integer after a mark (RFC 7541, section 5.1)."""
    most = (1 << bits) - 1
    if value < most:
        return bytes([mark | value])
    out, value = [mark | most], value - most
    while value >= 128:
        out.append(value % 128 | 128)
        value //= 128
    return bytes([*out, value])


def section(*lines: Line) -> bytes:
    """A field section of literal lines with literal names (RFC 9204, section 4.5.6)."""
    return b"\x00\x00" + b"".join(
        prefixed(0x20, 3, len(name)) + name + prefixed(0, 7, len(value)) + value
        for name, value in lines
    )


def session_lines(path: bytes) -> list[Line]:
    """The field lines of the request for a session."""
    return [
        (b":method", b"CONNECT"),
        (b":scheme", b"https"),
        (b":authority", b"127.0.0.1"),
        (b":path", path),
        (b":protocol", b"webtransport"),
        (b"sec-webtransport-http3-draft02", b"1"),
    ]


def session_request(path: bytes) -> bytes:
    return frame(0x01, section(*session_lines(path)))


def close_capsule(code: int, reason: bytes = b"") -> bytes:
    """The DATA frame with the capsule that closes a session."""
    value = code.to_bytes(4, "big") + reason
    return frame(0x00, number(0x2843) + number(len(value)) + value)


# A control stream: ENABLE_CONNECT_PROTOCOL, H3_DATAGRAM, ENABLE_WEBTRANSPORT of draft 02, each 1.
SETTINGS = b"\x00" + frame(0x04, b"\x08\x01\x33\x01" + number(0x2B603742) + b"\x01")


def settle(port: int) -> dict:
    """Waits until the server holds nothing of a connection: a close takes it some round trips, and
    it forgets a client that does not close after a minute. Returns what it saw."""
    deadline, log = time.monotonic() + 70, log_of(port)
    while log["sessions"] + log["readers"] and time.monotonic() < deadline:
        time.sleep(0.2)
        log = log_of(port)
    return log


class Incoming:
    """What came on a stream: its bytes, and how it ended."""

    def __init__(self) -> None:
        self.data, self.is_ended, self.reset, self.stopped = b"", False, None, None


class Client(QuicConnectionProtocol):
    """A connection whose streams are bytes. `until` waits for something to hold of them."""

    def __init__(self, *args: Any, **kwargs: Any) -> None:
        super().__init__(*args, **kwargs)
        self.incoming, self.datagrams, self.closed_by = {}, Counter(), None
        self.one_way, self.waiters = Counter(), []

    def stream(self, stream_id: int) -> Incoming:
        return self.incoming.setdefault(stream_id, Incoming())

    def take(self, stream_id: int) -> Incoming:
        """Returns what came on a stream, and forgets it. Nothing may have come."""
        return self.incoming.pop(stream_id, Incoming())

    def quic_event_received(self, event: events.QuicEvent) -> None:
        if isinstance(event, events.StreamDataReceived):
            stream = self.stream(event.stream_id)
            stream.data += event.data
            stream.is_ended = event.end_stream
            if event.end_stream and event.stream_id % 4 == 3:
                self.one_way[self.incoming.pop(event.stream_id).data] += 1
        elif isinstance(event, events.StreamReset):
            self.stream(event.stream_id).reset = event.error_code
        elif isinstance(event, events.StopSendingReceived):
            self.stream(event.stream_id).stopped = event.error_code
        elif isinstance(event, events.DatagramFrameReceived):
            self.datagrams[event.data] += 1
        elif isinstance(event, events.ConnectionTerminated):
            self.closed_by = event.error_code
        waiters, self.waiters = self.waiters, []
        for waiter in waiters:
            if not waiter.done():
                waiter.set_result(None)

    async def until(self, holds: Callable[[], object], seconds: float = PATIENCE) -> bool:
        """Waits until it holds, or for so long; returns whether it does."""
        deadline = self._loop.time() + seconds
        while not holds():
            self.waiters.append(self._loop.create_future())
            done, _ = await asyncio.wait(self.waiters[-1:], timeout=deadline - self._loop.time())
            if not done:
                return bool(holds())
        return True

    def open(self, data: bytes, end: bool = False, one_way: bool = False) -> int:
        """Opens a stream with these bytes; returns its number."""
        stream_id = self._quic.get_next_available_stream_id(is_unidirectional=one_way)
        self.send(stream_id, data, end)
        return stream_id

    def send(self, stream_id: int, data: bytes, end: bool = False) -> None:
        self._quic.send_stream_data(stream_id, data, end)
        self.transmit()

    def reset(self, stream_id: int, code: int) -> None:
        self._quic.reset_stream(stream_id, code)
        self.transmit()

    def stop(self, stream_id: int, code: int) -> None:
        self._quic.stop_stream(stream_id, code)
        self.transmit()

    def send_datagram(self, data: bytes) -> None:
        self._quic.send_datagram_frame(data)
        self.transmit()

    async def open_session(self, path: bytes) -> int:
        """Requests a session; returns its number once it is accepted."""
        session = self.open(session_request(path))

        def is_answered():
            return any(line in self.stream(session).data for line in STATUS_200)

        if not await self.until(is_answered):
            raise ConnectionError(f"no session: {self.stream(session).data!r}, {self.closed_by}")
        return session

    async def echoes(self, session: int, text: bytes) -> bool:
        """Whether the session echoes this text on a new stream."""
        stream = self.open(number(0x41) + number(session) + text, end=True)
        return await self.until(lambda: self.stream(stream).is_ended) and (
            self.take(stream).data == text
        )


def client_of(port: int, settings: bytes = SETTINGS) -> AsyncContextManager[Client]:
    """A connection to the server, with a control stream unless `settings` is empty."""

    class Opened:
        async def __aenter__(self) -> Client:
            quic = QuicConfiguration(
                is_client=True,
                alpn_protocols=["h3"],
                server_name="localhost",
                max_datagram_frame_size=65536,
                verify_mode=ssl.CERT_NONE,
            )
            self.inner = connect("127.0.0.1", port, configuration=quic, create_protocol=Client)
            client = await self.inner.__aenter__()
            if settings:
                client.open(settings, one_way=True)
            return client

        async def __aexit__(self, *error: Any) -> bool | None:
            return await self.inner.__aexit__(*error)

    return Opened()
