"""Counts what a client sends that is reserved for exercise, for a test.

The connection skips it, as RFC 9114 (section 7.2.8) and RFC 9297 (section 3.2) require, and does
not tell of it: so it is looked for in the bytes themselves.
"""
from __future__ import annotations

from collections import Counter
from typing import Iterator

from aioquic.quic import events

import wtransport
import wtransport_c as c


def is_reserved(number: int) -> bool:
    """The number is a setting or a type of streams or frames that is reserved for exercise (RFC
    9114, section 7.2.8)."""
    return number >= 0x21 and (number - 0x21) % 0x1F == 0


def is_reserved_capsule(number: int) -> bool:
    """The number is a type of capsules that is reserved (RFC 9297, section 5.4)."""
    return number >= 0x17 and (number - 0x17) % 0x29 == 0


class Items:
    """Reads items that are a type, a length and a payload: frames, or the capsules in them."""

    def __init__(self) -> None:
        self.rest, self.type, self.left = b"", 0, 0

    def read(self, data: bytes) -> Iterator[tuple[int, bytes | None]]:
        """Yields the type of each item, with None, and then its payload in pieces."""
        self.rest += data
        while self.rest:
            if self.left == 0:
                if not self._read_head():
                    return
                yield self.type, None
            piece, self.rest = self.rest[: self.left], self.rest[self.left :]
            self.left -= len(piece)
            if piece:
                yield self.type, piece

    def _read_head(self) -> bool:
        kind = wtransport.read_number(self.rest)
        size = kind and wtransport.read_number(self.rest[kind[1] :])
        if not size:
            return False
        self.type, self.left = kind[0], size[0]
        self.rest = self.rest[kind[1] + size[1] :]
        return True


class StreamCounter:
    """Counts in the bytes of one stream. `has_type`: its frames follow the type of the stream."""

    def __init__(self, has_type: bool, counts: Counter[str]) -> None:
        self.has_type, self.counts, self.is_done = has_type, counts, False
        self.frames, self.capsules, self.start = Items(), Items(), b""

    def read(self, data: bytes) -> None:
        if self.has_type:
            data = self._read_type(data)
        if not self.is_done:
            for kind, piece in self.frames.read(data):
                self._count(kind, piece)

    def _read_type(self, data: bytes) -> bytes:
        """The bytes after the type of the stream; none if they are no frames."""
        self.start += data
        found = wtransport.read_number(self.start)
        if not found:
            return b""
        self.has_type, self.is_done = False, found[0] != c.STREAM_CONTROL
        self.counts["reserved stream"] += is_reserved(found[0])
        return self.start[found[1] :]

    def _count(self, kind: int, piece: bytes | None) -> None:
        if kind == c.FRAME_WEBTRANSPORT:
            self.is_done = True
        elif piece is None:
            self.counts["reserved frame"] += is_reserved(kind)
        elif kind == c.FRAME_DATA:  # (only sessions have content here, which is capsules)
            for capsule, value in self.capsules.read(piece):
                self.counts["reserved capsule"] += value is None and is_reserved_capsule(capsule)


class GreaseCounter:
    """Counts in all streams that a client opens on a connection."""

    def __init__(self, counts: Counter[str]) -> None:
        self.counts = counts
        self.streams: dict[int, StreamCounter] = {}

    def handle(self, event: events.QuicEvent) -> None:
        if isinstance(event, events.StreamDataReceived) and event.stream_id % 2 == 0:
            number, is_one_way = event.stream_id, event.stream_id % 4 == 2
            stream = self.streams.setdefault(number, StreamCounter(is_one_way, self.counts))
            stream.read(event.data)
            if event.end_stream:
                del self.streams[number]
