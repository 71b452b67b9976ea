"""What a peer over aioquic sends and receives, byte by byte, as JSON."""

from __future__ import annotations

import json
from collections import defaultdict
from pathlib import Path

from aioquic.quic import events
from aioquic.quic.connection import QuicConnection


class PeerLog:
    """The bytes of each stream and datagram that a connection sent and received."""

    def __init__(self, quic: QuicConnection) -> None:
        self.sent, self.received = defaultdict(bytearray), defaultdict(bytearray)
        self.ends = {"sent": {}, "received": {}}
        self.datagrams = {"sent": [], "received": []}
        self._quic = quic
        self._send_stream_data, self._reset = quic.send_stream_data, quic.reset_stream
        self._send_datagram = quic.send_datagram_frame
        quic.send_stream_data = self.send_stream_data
        quic.reset_stream = self.reset_stream
        quic.send_datagram_frame = self.send_datagram_frame

    def send_stream_data(self, stream_id: int, data: bytes, end_stream: bool = False) -> None:
        self._send_stream_data(stream_id, data, end_stream)
        self.sent[stream_id] += data
        if end_stream:
            self.ends["sent"][stream_id] = "fin"

    def reset_stream(self, stream_id: int, error_code: int) -> None:
        self._reset(stream_id, error_code)
        self.ends["sent"][stream_id] = f"reset {error_code}"

    def send_datagram_frame(self, data: bytes) -> None:
        self._send_datagram(data)
        self.datagrams["sent"].append(data)

    def handle(self, event: events.QuicEvent) -> None:
        """Takes an event of QUIC."""
        match event:
            case events.StreamDataReceived(data=data, end_stream=ended, stream_id=number):
                self.received[number] += data
                if ended:
                    self.ends["received"][number] = "fin"
            case events.StreamReset(error_code=code, stream_id=number):
                self.ends["received"][number] = f"reset {code}"
            case events.DatagramFrameReceived(data=data):
                self.datagrams["received"].append(data)

    def of(self, what: str) -> dict:
        """What was sent or received: the digits of each stream and how it ended, and the digits of
        each datagram."""
        streams = {
            str(number): [bytes(content).hex(), self.ends[what].get(number, "open")]
            for number, content in sorted(getattr(self, what).items())
        }
        return {"streams": streams, "datagrams": [data.hex() for data in self.datagrams[what]]}

    def write(self, file: Path) -> None:
        said = {what: self.of(what) for what in ("sent", "received")}
        file.write_text(json.dumps(said, indent=1) + "\n", encoding="utf-8")
