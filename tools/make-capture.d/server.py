"""A server of HTTP/3 and WebTransport on 127.0.0.1, over aioquic, that logs its bytes.

    server.py PORT CERT KEY SECONDS FOLDER [retry]

It answers each request with a line of text, and prints 'answered'. In a session, each stream and
datagram comes back, a unidirectional stream on one of the server; once the session ends, it prints
'closed'. The server ends after SECONDS, or on SIGTERM. FOLDER gets a file server-N.json for each
connection, numbered from 0, when it or the server ends. With 'retry', it answers the first packet
of a client with a Retry (RFC 9000, section 8.1.2).
"""

from __future__ import annotations

import asyncio
import signal
import sys
from pathlib import Path

from aioquic.asyncio import QuicConnectionProtocol, serve
from aioquic.h3 import events as h3
from aioquic.h3.connection import H3_ALPN, H3Connection
from aioquic.quic.configuration import QuicConfiguration
from aioquic.quic.events import ConnectionTerminated, QuicEvent

from peer_log import PeerLog

TEXT = b"Hello from aioquic.\n"
ACCEPTED = [(b":status", b"200"), (b"sec-webtransport-http3-draft", b"draft02")]
FOUND = [(b":status", b"200"), (b"content-type", b"text/plain"), (b"server", b"aioquic")]


class Server(QuicConnectionProtocol):
    """A connection of a client."""

    folder, opened = None, []

    def __init__(self, *arguments, **options) -> None:
        super().__init__(*arguments, **options)
        self.log, self.http = PeerLog(self._quic), None
        self.one_way: dict[int, bytes] = {}
        Server.opened.append(self)

    def quic_event_received(self, event: QuicEvent) -> None:
        self.log.handle(event)
        if self.http is None:
            self.http = H3Connection(self._quic, enable_webtransport=True)
        if isinstance(event, ConnectionTerminated):
            self.write()
        for thing in self.http.handle_event(event):
            self.act(thing)
        self.transmit()

    def act(self, event: h3.H3Event) -> None:
        """Does what an event of HTTP/3 asks for."""
        match event:
            case h3.HeadersReceived(headers=headers, stream_id=number):
                self.answer(number, dict(headers))
            case h3.DataReceived(stream_id=number, stream_ended=True):
                self._quic.send_stream_data(number, b"", end_stream=True)
                print("closed", flush=True)
            case h3.WebTransportStreamDataReceived():
                self.send_back(event)
            case h3.DatagramReceived(data=data, stream_id=number):
                self.http.send_datagram(number, data)

    def answer(self, number: int, headers: dict[bytes, bytes]) -> None:
        if headers.get(b":protocol") == b"webtransport":
            self.http.send_headers(number, ACCEPTED)
            return
        self.http.send_headers(number, FOUND)
        self.http.send_data(number, TEXT, end_stream=True)
        print("answered", flush=True)

    def send_back(self, event: h3.WebTransportStreamDataReceived) -> None:
        number, data, ended = event.stream_id, event.data, event.stream_ended
        if number % 4 == 0:
            self._quic.send_stream_data(number, data, end_stream=ended)
            return
        self.one_way[number] = self.one_way.get(number, b"") + data
        if ended:
            back = self.http.create_webtransport_stream(event.session_id, is_unidirectional=True)
            self._quic.send_stream_data(back, self.one_way.pop(number), end_stream=True)

    def write(self) -> None:
        """Writes what was sent and received."""
        self.log.write(self.folder / f"server-{self.opened.index(self)}.json")


async def main() -> None:
    port, certificate, key, seconds, folder = sys.argv[1:6]
    Server.folder = Path(folder)
    configuration = QuicConfiguration(
        alpn_protocols=H3_ALPN, is_client=False, max_datagram_frame_size=65536
    )
    configuration.load_cert_chain(certificate, key)
    server = await serve(
        *("127.0.0.1", int(port)),
        configuration=configuration,
        create_protocol=Server,
        retry="retry" in sys.argv[6:],
    )
    done = asyncio.Event()
    asyncio.get_running_loop().add_signal_handler(signal.SIGTERM, done.set)
    print("ready", flush=True)
    try:
        await asyncio.wait_for(done.wait(), float(seconds))
    except TimeoutError:
        pass
    server.close()
    for connection in Server.opened:
        connection.write()


asyncio.run(main())
