"""A WebTransport server on 127.0.0.1, and a plain HTTP server on the next port for its pages.

    server.py PORT CERT KEY HASH SECONDS

HASH is the SHA-256 of the certificate in hexadecimal digits, which a page hands to its browser. The
server ends after SECONDS, or when it is told to (SIGTERM). Sessions, by the path of their URL:

    /echo          each stream and datagram comes back; a reset comes back with its code
    /commands      'reset N', 'stop N' on a stream, 'close N TEXT' end the stream or the session
    /push          the server opens streams of SIZES both ways and one way; when those both ways
                   have come back, it sends a datagram
    /push?empty    the same with streams of no bytes
    /deny/403, /deny/404, and all others: the request is denied
"""
from __future__ import annotations

import asyncio
import ctypes
import functools
import gc
import json
import os
import signal
import sys
from collections import Counter, deque
from typing import Any

from aioquic.asyncio import QuicConnectionProtocol, serve
from aioquic.quic.configuration import QuicConfiguration
from aioquic.quic.events import ProtocolNegotiated, QuicEvent

from application import Application
from grease import GreaseCounter, is_reserved
from http3 import Connection
from sessions import Session, Stream
from wtransport import Fields

HERE = os.path.dirname(os.path.abspath(__file__))
SIZES = (1, 4096, 100_000)


class MallInfo(ctypes.Structure):
    """What glibc says of its heap (mallinfo2)."""

    _fields_ = [
        (name, ctypes.c_size_t)
        for name in (
            "arena",
            "ordblks",
            "smblks",
            "hblks",
            "hblkhd",
            "usmblks",
            "fsmblks",
            "uordblks",
            "fordblks",
            "keepcost",
        )
    ]


def heap() -> int:
    """The bytes that the process has from malloc: all of Python's too with PYTHONMALLOC=malloc."""
    gc.collect()
    libc = ctypes.CDLL(None)
    libc.mallinfo2.restype = MallInfo
    info = libc.mallinfo2()
    return info.uordblks + info.hblkhd


def pattern(size: int) -> bytes:
    """The bytes of a test: their count tells each from the others, their order where each is."""
    return bytes(i * 7 % 251 for i in range(size))


def command(session: Session) -> str:
    """What a session does: the path of its URL."""
    return session.path.split("?")[0]


class Log:
    """What the server saw, for a test: rows of sessions, and for those of a load only counts."""

    def __init__(self) -> None:
        self.rows: deque[list] = deque(maxlen=4096)
        self.page_rows: deque[object] = deque(maxlen=256)
        self.counts: Counter[str] = Counter()
        self.is_done = False
        self.most_held = 0  # the most bytes that any stream has held between two events

    def clear(self) -> None:
        """Begins anew, for another browser."""
        for held in (self.rows, self.page_rows, self.counts):
            held.clear()
        self.is_done = False

    def add(self, session: Session, what: str, *values: object) -> None:
        if session.path == "/echo?load":
            self.counts["load, " + what] += 1
        else:
            self.rows.append([session.path, what, *values])

    def note(self, connection: Connection, stream_id: int) -> None:
        """Notes how many bytes a stream holds after an event, and what QPACK's tables were used
        for."""
        stream = connection.state.streams.get(stream_id)
        self.most_held = max(self.most_held, stream.held if stream else 0)
        self.counts.update(connection.state.counts)
        connection.state.counts.clear()

    def summary(self, live: set[Connection]) -> dict[str, object]:
        """All of it, for JSON; `live` are the connections."""
        streams = [stream for c in live for stream in c.streams.values()]
        return {
            "rows": list(self.rows),
            "counts": self.counts,
            "page": list(self.page_rows),
            "done": self.is_done,
            "held": max((s.state.held for s in streams if s.state), default=0),
            "undecided": self.most_held,
            "sessions": sum(len(c.sessions) for c in live),
            "readers": sum(s.can_receive for s in streams),
            "streams": sum(s.session is not None for s in streams),
        }


class Pages:
    """The files of this folder that a browser may have."""

    files = {
        "/": ("page.html",),
        "/test": ("test.html",),
        "/picture": ("page.html", "picture.html"),
    }

    def __init__(self, port: int, digest: str) -> None:
        self.port, self.digest = port, digest

    def get(self, path: str) -> bytes | None:
        """The page at a path, or None."""
        if path not in self.files:
            return None
        text = ""
        for name in self.files[path]:
            with open(os.path.join(HERE, name), encoding="utf-8") as file:
                text += file.read()
        return text.replace("@PORT@", str(self.port)).replace("@HASH@", self.digest).encode()


class Site(Application):
    """The sessions and pages of this server."""

    def __init__(self, log: Log, pages: Pages) -> None:
        self.log, self.pages = log, pages
        self.replies: dict[Stream, Stream] = {}
        self.pushed: dict[Stream, list[bytes]] = {}

    def request(self, fields: Fields) -> tuple[int, Fields, bytes]:
        page = self.pages.get(dict(fields).get(b":path", b"").decode("utf-8", "replace"))
        shared = [(b"access-control-allow-origin", b"*"), (b"timing-allow-origin", b"*")]
        if page is None:
            return 404, shared, b"not found\n"
        return 200, [(b"content-type", b"text/html; charset=utf-8"), *shared], page

    def session(self, session: Session, fields: Fields) -> int:
        status = 200 if command(session) in ("/echo", "/commands", "/push") else 404
        if command(session) in ("/deny/403", "/deny/404"):
            status = int(command(session)[-3:])
        if status != 200:
            self.log.add(session, "denied", status)
        return status

    def opened(self, session: Session) -> None:
        self.log.add(session, "opened")
        if command(session) == "/push":
            for size in SIZES if session.path == "/push" else (0,):
                stream = session.open_stream(bidirectional=True)
                self.pushed[stream] = [pattern(size), b""]
                stream.send(pattern(size), True)
                session.open_stream(bidirectional=False).send(pattern(size), True)

    def received(self, stream: Stream, data: bytes, end: bool) -> None:
        session = stream.session
        if stream in self.pushed:
            self._check_pushed(stream, data, end)
        elif command(session) == "/commands":
            self._obey(stream, data.decode())
        elif stream.is_bidirectional:
            stream.send(data, end)
        else:
            if stream not in self.replies:
                self.replies[stream] = session.open_stream(bidirectional=False)
            self.replies[stream].send(data, end)
        if end:
            self.log.add(session, "end of stream")
            self.replies.pop(stream, None)

    def _check_pushed(self, stream: Stream, data: bytes, end: bool) -> None:
        """The page is to send back what the server sent."""
        self.pushed[stream][1] += data
        if end:
            sent, came = self.pushed.pop(stream)
            self.log.add(stream.session, "pushed", len(sent), sent == came)
            if all(other.session is not stream.session for other in self.pushed):
                stream.session.send_datagram(b"a datagram of the server")

    def _obey(self, stream: Stream, text: str) -> None:
        word, _, rest = text.partition(" ")
        number, _, reason = rest.partition(" ")
        if not number.isdigit() or int(number) >= 1 << 32:
            return
        if word == "reset":
            stream.reset(int(number))
        elif word == "stop":
            stream.stop(int(number))
        elif word == "close":
            stream.session.close(int(number), reason)

    def was_reset(self, stream: Stream, code: int | None) -> None:
        self.log.add(stream.session, "reset", code)
        reply = self.replies.pop(stream, stream)
        if code is not None:
            reply.reset(code)

    def was_stopped(self, stream: Stream, code: int | None) -> None:
        self.log.add(stream.session, "stopped", code)

    def datagram(self, session: Session, payload: bytes) -> None:
        self.log.add(session, "datagram", len(payload))
        session.send_datagram(payload)

    def closed(self, session: Session, code: int | None, reason: str) -> None:
        for table in (self.pushed, self.replies):
            for stream in [s for s in table if s.session is session]:
                del table[stream]
        self.log.add(session, "closed", code, reason)

    def settings(self, settings: dict[int, int]) -> None:
        self.log.counts["reserved setting"] += any(map(is_reserved, settings))


class Protocol(QuicConnectionProtocol):
    """A connection of aioquic, with HTTP/3 over it."""

    def __init__(self, *args: Any, site: Site, live: set[Connection], **kwargs: Any) -> None:
        super().__init__(*args, **kwargs)
        self.site, self.live = site, live
        self.http: Connection | None = None
        self.grease = GreaseCounter(site.log.counts)

    def quic_event_received(self, event: QuicEvent) -> None:
        if isinstance(event, ProtocolNegotiated):
            self.http = Connection(self._quic, self.site)
            self.live.add(self.http)
        if self.http is not None:
            self.grease.handle(event)
            self.http.handle(event)
            self.site.log.note(self.http, getattr(event, "stream_id", -1))
            self.transmit()
            if self.http.is_closed and self.http in self.live:
                self.live.discard(self.http)
                gc.collect()  # objects of aioquic's connections refer to one another


def respond(
    method: str, path: str, body: bytes, log: Log, live: set[Connection], pages: Pages
) -> tuple[str, bytes] | None:
    """The answer of the plain HTTP server: (type, bytes), or None."""
    if method == "POST":
        if path == "/say":
            log.page_rows.append(json.loads(body))
        elif path == "/clear":
            log.clear()
        log.is_done = log.is_done or path == "/done"
        return "text/plain", b""
    if path == "/heap":
        return "text/plain", str(heap()).encode()
    if path == "/log":
        return "application/json", json.dumps(log.summary(live)).encode()
    page = pages.get(path)
    return page and ("text/html; charset=utf-8", page)


async def exchange(
    reader: asyncio.StreamReader,
    writer: asyncio.StreamWriter,
    log: Log,
    live: set[Connection],
    pages: Pages,
) -> None:
    """One request of the plain HTTP server."""
    try:
        head = await reader.readuntil(b"\r\n\r\n")
    except (asyncio.IncompleteReadError, ConnectionError):
        writer.close()  # a browser opens some connections that it does not use
        return
    lines = head.decode("latin-1").split("\r\n")
    method, path, _ = lines[0].split(" ")
    lengths = [
        int(line.split(":")[1]) for line in lines if line.lower().startswith("content-length:")
    ]
    body = await reader.readexactly(lengths[0]) if lengths else b""
    if path == "/late":  # what a picture waits for
        await asyncio.sleep(4)
    found = respond(method, path, body, log, live, pages)
    kind, answer = found or ("text/plain", b"not found\n")
    status = "200 OK" if found else "404 Not Found"
    writer.write(
        f"HTTP/1.1 {status}\r\nContent-Type: {kind}\r\nContent-Length: {len(answer)}\r\n"
        "Cache-Control: no-store\r\nConnection: close\r\n\r\n".encode() + answer
    )
    await writer.drain()
    writer.close()


async def main() -> None:
    port, cert, key, digest, seconds = sys.argv[1:6]
    log, live, port = Log(), set(), int(port)
    quic = QuicConfiguration(is_client=False, alpn_protocols=["h3"], max_datagram_frame_size=65536)
    quic.load_cert_chain(cert, key)
    pages = Pages(port, digest)
    create = functools.partial(Protocol, site=Site(log, pages), live=live)
    await serve("127.0.0.1", port, configuration=quic, create_protocol=create)
    web = await asyncio.start_server(
        functools.partial(exchange, log=log, live=live, pages=pages), "127.0.0.1", port + 1
    )
    ended = asyncio.Event()
    asyncio.get_running_loop().add_signal_handler(signal.SIGTERM, ended.set)
    print(f"ready: https://127.0.0.1:{port}/ by HTTP/3, http://127.0.0.1:{port + 1}/", flush=True)
    try:
        await asyncio.wait_for(ended.wait(), float(seconds))
    except asyncio.TimeoutError:
        print("server.py: its time is over", flush=True)
    web.close()


if __name__ == "__main__":
    asyncio.run(main())
