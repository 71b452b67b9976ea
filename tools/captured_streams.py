"""The streams and datagrams of a QUIC connection, put together from the frames of its packets."""

from bisect import bisect_left
from collections import defaultdict
from dataclasses import dataclass, field

from capture_reader import APPLICATION, Incomplete

SIDES = ("client", "server")
OTHER = {"client": "server", "server": "client"}
# The types of frames (RFC 9000, section 19; RFC 9221, section 4).
ACK, RESET_STREAM, STREAM, CLOSE, DATAGRAM = (2, 3), 4, range(8, 16), (28, 29), (48, 49)
FIN, LEN, OFF = 1, 2, 4
DATAGRAM_WITH_LENGTH = 49
CLIENT_HELLO = "1"  # RFC 8446, section 4
# The types of unidirectional streams that stay open: the control stream and those of QPACK (RFC
# 9114, section 6.2.1; RFC 9204, section 4.2).
CRITICAL = (b"\x00", b"\x02", b"\x03")


@dataclass
class Half:
    """What an end sent on a stream: the bytes up to the first that is missing, how they end, and
    what is wrong."""

    content: bytes
    end: str
    faults: list

    def is_critical(self, stream):
        """Returns whether it is open as long as the connection, if this is the ID of its stream."""
        return bool(stream & 2) and self.content[:1] in CRITICAL


@dataclass
class Sending:
    """What the packets have of a direction of a stream: pieces of bytes by their offsets, its final
    size if that is known, and the code of its reset."""

    pieces: list = field(default_factory=list)
    sizes: set = field(default_factory=set)
    reset: int = None

    def assembled(self):
        """Returns the bytes, and how they end."""
        content, after, differs = bytearray(), [], False
        for at, data in sorted(self.pieces, key=lambda piece: piece[0]):
            if at > len(content):
                after.append((at, at + len(data)))
                continue
            both = min(len(content) - at, len(data))
            differs |= content[at : at + both] != data[:both]
            content += data[both:]
        left = sum(end - start for start, end in merged(after))
        end, faults = self.end(len(content), left)
        if differs:
            faults.append("it was sent twice, with other bytes")
        # (RFC 9000, section 4.5)
        if len(self.sizes) > 1 or min(self.sizes, default=len(content)) < len(content):
            faults.append("its final size changes")
        return Half(bytes(content), end, faults)

    def end(self, count, left):
        """Returns how it ends after so many bytes, if so many are left out, and the faults."""
        size = max(self.sizes, default=None)
        rest = f", {left} after a hole left out" if left else ""
        if self.reset is not None:
            words = f"reset with code {self.reset:#x}"
            return (f"{words} at {size} bytes" if count != size else words) + rest, []
        if left or (size is not None and count < size):
            words = f"bytes are missing at {count}" + rest
            return words, [words]
        return "open" if size is None else "ended", []


def merged(ranges):
    """Returns ranges of numbers, each without its end, as few that do not touch."""
    found = []
    for start, end in sorted(ranges):
        if found and start <= found[-1][1]:
            found[-1][1] = max(found[-1][1], end)
        else:
            found.append([start, end])
    return found


def without(ranges, numbers):
    """Returns what is left of ranges without these numbers."""
    left, gone = [], sorted(numbers)
    for start, end in merged(ranges):
        for number in gone[bisect_left(gone, start) : bisect_left(gone, end)]:
            if start < number:
                left.append((start, number))
            start = number + 1
        if start < end:
            left.append((start, end))
    return left


@dataclass
class Unread:
    """Packets that could not be decrypted: how many, the first by the number of its frame in the
    capture, and the size of the largest UDP datagram with one."""

    first: int
    count: int = 0
    largest: int = 0


class Connection:
    """A QUIC connection of a capture. `add` takes each of its datagrams, in the order in which they
    were captured."""

    def __init__(self, number):
        self.number = number
        self.addresses = {"client": [], "server": []}
        self.random = None  # of the ClientHello, in hexadecimal digits
        self.streams = defaultdict(Sending)  # by stream and sender
        self.datagrams = []  # sender and bytes
        self.closes = []
        self.seen = defaultdict(set)  # by sender and space: the packet numbers
        self.acked = defaultdict(list)  # by sender and space: ranges that the other end has
        self.unread = {}  # by sender
        self.frames = []  # of the capture
        self.retried = []  # those up to the first Retry, and later ones with a Retry
        self.stopped = []  # frame of the capture, and why the rest of its packet is not read

    def side_of(self, datagram):
        """Returns who sent a datagram. The first is the client's; later either end may change its
        address (RFC 9000, section 9)."""
        source, destination = datagram.source, datagram.destination
        if not self.addresses["client"]:
            self.addresses = {"client": [source], "server": [destination]}
        for side in ("server", "client"):
            if source in self.addresses[side]:
                self.add_address(OTHER[side], destination)
                return side
        for side in ("server", "client"):
            if destination in self.addresses[side]:
                self.add_address(OTHER[side], source)
                return OTHER[side]
        return None

    def add_address(self, side, address):
        if address not in self.addresses[side]:
            self.addresses[side].append(address)

    def add(self, datagram):
        """Adds a datagram."""
        side = self.side_of(datagram)
        self.frames.append(datagram.number)
        if datagram.has_retry:
            self.retried += [datagram.number] if self.retried else self.frames
        for packet in datagram.packets:
            if side is None or not packet.frames:
                unread = self.unread.setdefault(side, Unread(datagram.number))
                unread.count += 1
                unread.largest = max(unread.largest, len(datagram.content))
            elif packet.number not in self.seen[side, packet.space]:
                self.seen[side, packet.space].add(packet.number)
                self.add_frames(side, packet, datagram.number)
        if datagram.is_malformed and datagram.number not in dict(self.stopped):
            self.stopped.append((datagram.number, "tshark calls it malformed"))

    def add_frames(self, side, packet, at):
        """Adds the frames of a packet, up to the first that ends early or is of a type that tshark
        does not know: it does not know where the next one begins."""
        for frame in packet.frames:
            try:
                kind = frame.need("quic.frame_type")
                if frame.find("quic.ft.unknown") is not None:
                    why = f"tshark does not know QUIC frames of type {kind:#x}"
                    self.stopped.append((at, why))
                    return
                self.add_frame(side, packet.space, kind, frame)
            except Incomplete:
                self.stopped.append((at, f"a QUIC frame of type {kind:#x} ends early"))
                return

    def add_frame(self, side, space, kind, frame):
        if kind in ACK:
            self.acked[OTHER[side], space] += acknowledged(frame)
        elif kind in STREAM:
            self.add_piece(side, kind, frame)
        elif kind == RESET_STREAM:
            self.add_reset(side, frame)
        elif kind in DATAGRAM:
            self.add_datagram(side, kind, frame)
        elif kind in CLOSE:
            self.closes.append(f"{side} {close_words(frame)}")
        elif side == "client" and frame.find("tls.handshake.type") == CLIENT_HELLO:
            self.random = frame.find("tls.handshake.random").replace(":", "")

    def add_reset(self, side, frame):
        size = frame.need("quic.rsts.final_size")  # the last part of the frame
        sending = self.streams[frame.need("quic.rsts.stream_id"), side]
        sending.reset = frame.need("quic.rsts.application_error_code")
        sending.sizes.add(size)

    def add_piece(self, side, kind, frame):
        stream = frame.need("quic.stream.stream_id")
        at = frame.need("quic.stream.offset") if kind & OFF else 0
        data = frame.content("quic.stream_data")
        if kind & LEN and frame.need("quic.stream.length") != len(data):
            raise Incomplete
        sending = self.streams[stream, side]
        sending.pieces.append((at, data))
        if kind & FIN:
            sending.sizes.add(at + len(data))

    def add_datagram(self, side, kind, frame):
        data = frame.content("quic.dg")
        if kind == DATAGRAM_WITH_LENGTH and frame.need("quic.dg.length") != len(data):
            raise Incomplete
        self.datagrams.append((side, data))

    def lost(self, side):
        """Returns the ranges of numbers of packets that the other end has and the capture has not,
        of those with streams and datagrams. (A number that is in no packet may have been left out
        by its sender: RFC 9000, section 21.4.)"""
        return without(self.acked[side, APPLICATION], self.seen[side, APPLICATION])


def acknowledged(frame):
    """Returns the ranges of an ACK frame (RFC 9000, section 19.3.1)."""
    largest = frame.need("quic.ack.largest_acknowledged")
    start = largest - frame.need("quic.ack.first_ack_range")
    ranges = [(start, largest + 1)]
    gaps, lengths = frame.numbers("quic.ack.gap"), frame.numbers("quic.ack.ack_range")
    for gap, length in zip(gaps, lengths):
        end = start - gap - 1
        start = end - length - 1
        ranges.append((start, end))
    return ranges


def close_words(frame):
    """Returns the code and the reason of a CONNECTION_CLOSE frame."""
    code, whose = frame.number("quic.cc.error_code.app"), "application"
    if code is None:
        code, whose = frame.need("quic.cc.error_code"), "transport"
    reason = frame.get("quic.cc.reason_phrase")
    return f"with code {code:#x} of the {whose}" + (f", {reason!r}" if reason else "")
