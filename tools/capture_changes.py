"""A packet capture, and the same with packets that are missing, cut, joined or in another order.

The file is one of tcpdump (little-endian, of Ethernet and IPv4): a head of 24 bytes, and before
each packet its time, and how many bytes the file has of it and how many it had.
"""

import struct
import tempfile
from pathlib import Path

from capture_reader import Reading
from captured_streams import DATAGRAM, STREAM, Connection

HEAD, RECORD = 24, struct.Struct("<IIII")
# The bytes of the headers: Ethernet, IPv4 without options, UDP.
ETHERNET, IP, UDP = 14, 20, 8


class Capture:
    """The packets of a capture, with its key log. Each change returns the bytes of a new one;
    packets are numbered from 0."""

    def __init__(self, content, keys):
        self.head, self.records, at = content[:HEAD], [], HEAD
        while at < len(content):
            seconds, fraction, size, _ = RECORD.unpack_from(content, at)
            data = content[at + RECORD.size : at + RECORD.size + size]
            self.records.append((seconds, fraction, data))
            at += RECORD.size + size
        self.frames = list(self.read(keys))

    def read(self, keys):
        """Yields who sent each packet, and its frames."""
        with tempfile.TemporaryDirectory() as name:
            file, log = Path(name) / "capture", Path(name) / "keys"
            file.write_bytes(self.content())
            log.write_text(keys, encoding="utf-8")
            connection = Connection(0)
            for datagram in Reading(file, log).datagrams():
                frames = [frame for packet in datagram.packets for frame in packet.frames]
                yield connection.side_of(datagram), frames

    def with_stream(self, stream, side):
        """Returns the packets in which an end sent something on a stream."""
        return self.with_frame(
            side, lambda f: kind_of(f) in STREAM and f.number("quic.stream.stream_id") == stream
        )

    def with_datagram(self, side):
        """Returns the packets in which an end sent a datagram."""
        return self.with_frame(side, lambda frame: kind_of(frame) in DATAGRAM)

    def with_frame(self, side, accepts):
        return [
            at
            for at, (sender, frames) in enumerate(self.frames)
            if sender == side and any(map(accepts, frames))
        ]

    def content(self, records=None, cut=None):
        """Returns the bytes of a capture with these packets, each cut to so many bytes."""
        written = [self.head]
        for seconds, fraction, data in self.records if records is None else records:
            kept = data[:cut]
            written += [RECORD.pack(seconds, fraction, len(kept), len(data)), kept]
        return b"".join(written)

    def twice(self):
        """Each packet twice, as where an interface is captured on its way out and in."""
        return self.content([record for record in self.records for _ in range(2)])

    def again(self):
        """All packets once more, after the last."""
        return self.content(self.records * 2)

    def swapped(self, at):
        """A packet after the next of the same sender."""
        records, side = list(self.records), self.frames[at][0]
        later = next(n for n in range(at + 1, len(records)) if self.frames[n][0] == side)
        records.insert(later, records.pop(at))
        return self.content(records)

    def with_icmp(self, at):
        """With a message of ICMP after a packet: that its port cannot be reached (RFC 792)."""
        records = list(self.records)
        seconds, fraction, data = records[at]
        head = bytearray(data[: ETHERNET + IP])
        body = struct.pack(">BBHI", 3, 3, 0, 0) + data[ETHERNET : ETHERNET + 548]
        struct.pack_into(">H", head, ETHERNET + 2, IP + len(body))
        head[ETHERNET + 9] = 1
        records.insert(at + 1, (seconds, fraction, bytes(head) + body))
        return self.content(records)

    def dropped(self, *places):
        """Without these packets."""
        kept = [record for at, record in enumerate(self.records) if at not in places]
        return self.content(kept)

    def cut(self, size):
        """Each packet cut to so many bytes."""
        return self.content(cut=size)

    def joined(self, side, size=0):
        """The first two packets with a short header of an end in one UDP datagram, over and over
        until it has this size."""
        first = ETHERNET + IP + UDP
        places = [
            at
            for at, (_, _, data) in enumerate(self.records)
            if self.frames[at][0] == side and not data[first] & 0x80
        ]
        joined = b"".join(self.records[at][2][first:] for at in places[:2])
        while len(joined) < size:
            joined += joined
        records = [record for at, record in enumerate(self.records) if at != places[1]]
        seconds, fraction, data = self.records[places[0]]
        records[places[0]] = (seconds, fraction, with_payload(data, joined))
        return self.content(records)


def kind_of(frame):
    return frame.number("quic.frame_type")


def with_payload(data, payload):
    """Returns a packet with another payload, and without a UDP checksum."""
    head = bytearray(data[: ETHERNET + IP + UDP])
    struct.pack_into(">H", head, ETHERNET + 2, IP + UDP + len(payload))
    struct.pack_into(">HH", head, ETHERNET + IP + 4, UDP + len(payload), 0)
    return bytes(head) + payload
