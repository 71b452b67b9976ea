"""A client of WebTransport over aioquic that logs its bytes.

    client.py PORT CERT KEYS FOLDER

It opens a session at server.py, sends a bidirectional stream, a unidirectional one and a datagram,
waits until they are back, and closes the session with a code and a reason. KEYS gets the secrets of
the connection, and FOLDER a file client-0.json.
"""

from __future__ import annotations

import asyncio
import sys
from pathlib import Path

from aioquic.asyncio import QuicConnectionProtocol, connect
from aioquic.h3.events import H3Event, HeadersReceived
from aioquic.h3.connection import H3_ALPN, H3Connection
from aioquic.quic.configuration import QuicConfiguration
from aioquic.quic.events import DatagramFrameReceived, QuicEvent, StreamDataReceived

from peer_log import PeerLog

PATIENCE = 10  # seconds
CLOSE = bytes.fromhex("6843 07 00000007") + b"bye"  # code 7, and a reason


class Client(QuicConnectionProtocol):
    """A connection with one session."""

    def __init__(self, *arguments, **options) -> None:
        super().__init__(*arguments, **options)
        self.log = PeerLog(self._quic)
        self.http = H3Connection(self._quic, enable_webtransport=True)
        self.sessions_streams: set[int] = set()
        self.came: asyncio.Queue[QuicEvent | H3Event] = asyncio.Queue()

    def quic_event_received(self, event: QuicEvent) -> None:
        self.log.handle(event)
        self.came.put_nowait(event)
        # What comes back on a stream of a session has no frames.
        if getattr(event, "stream_id", None) not in self.sessions_streams:
            for thing in self.http.handle_event(event):
                self.came.put_nowait(thing)

    async def until(self, wanted: type, has: str | None = None) -> None:
        """Waits for an event, of which this is true."""
        while True:
            event = await asyncio.wait_for(self.came.get(), PATIENCE)
            if isinstance(event, wanted) and (has is None or getattr(event, has)):
                return

    async def run(self, authority: str) -> None:
        session = self._quic.get_next_available_stream_id()
        self.http.send_headers(
            session,
            [
                (b":method", b"CONNECT"),
                (b":scheme", b"https"),
                (b":authority", authority.encode()),
                (b":path", b"/echo"),
                (b":protocol", b"webtransport"),
                (b"sec-webtransport-http3-draft02", b"1"),
            ],
        )
        self.transmit()
        await self.until(HeadersReceived)
        for is_one_way, text in ((False, b"both ways"), (True, b"one way")):
            stream = self.http.create_webtransport_stream(session, is_unidirectional=is_one_way)
            self.sessions_streams.add(stream)
            self._quic.send_stream_data(stream, text, end_stream=True)
            self.transmit()
            await self.until(StreamDataReceived, "end_stream")
        self.http.send_datagram(session, b"a datagram")
        self.transmit()
        await self.until(DatagramFrameReceived)
        self.http.send_data(session, CLOSE, end_stream=True)
        self.transmit()
        await self.until(StreamDataReceived, "end_stream")


async def main() -> None:
    port, authority, keys, folder = sys.argv[1:5]
    configuration = QuicConfiguration(alpn_protocols=H3_ALPN, max_datagram_frame_size=65536)
    configuration.server_name = "localhost"
    configuration.load_verify_locations(authority)
    with open(keys, "a", encoding="utf-8") as secrets:
        configuration.secrets_log_file = secrets
        async with connect(
            "127.0.0.1", int(port), configuration=configuration, create_protocol=Client
        ) as client:
            await client.run(f"localhost:{port}")
    client.log.write(Path(folder) / "client-0.json")


asyncio.run(main())
