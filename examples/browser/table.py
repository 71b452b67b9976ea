"""QPACK's dynamic tables of a connection (RFC 9204): its own for what it receives, and that of the
peer for what it sends.

Both are bytes of the C library. What is to be sent for them is collected: `due` has the bytes for
the own decoder stream of a `Table`, and for the own encoder stream of an `Encoder`.
"""
from __future__ import annotations

from collections import Counter
from ctypes import c_size_t, c_uint32, c_uint64, create_string_buffer
from typing import Callable

import wtransport_c as c
from wtransport import Fields, array_of, check, library, written

# What is counted of the tables.
ENTRIES, INSTRUCTED = "entries of tables", "bytes of instructions"
SETTLED = "sections acknowledged"  # or cancelled, of those that refer to the peer's table


class Table:
    """A table with a capacity in bytes. `inserted` is the number of its entries so far."""

    def __init__(self, capacity: int, counts: Counter[str]) -> None:
        self.inserted, self.due, self.counts = 0, b"", counts
        self.room = create_string_buffer(library.wt_table_size(capacity))
        check(library.wt_table_new(capacity, self.room, len(self.room)))

    def was_read(self, stream_id: int, inserted: int | None) -> None:
        """A call read a stream; `inserted`: the entries that there are, if it says so."""
        self._tell(library.wt_table_acknowledge, stream_id)
        if inserted is not None:
            self.counts[ENTRIES] += inserted - self.inserted
            self.inserted = inserted
            self._tell(library.wt_table_increment)

    def was_dropped(self, stream_id: int) -> None:
        """The stream of a message is read no further."""
        self._tell(library.wt_table_cancel, stream_id)

    def _tell(self, call: Callable[..., int], *stream_id: int) -> None:
        self.due += written(call, self.room, len(self.room), *stream_id)


class Encoder:
    """An encoder, which uses no table before the SETTINGS of the peer came. It uses at most so many
    bytes of the peer's table, and as many sections may refer to it and not be acknowledged."""

    def __init__(self, capacity: int, sections: int, counts: Counter[str]) -> None:
        self.due, self.counts = b"", counts
        self.room = create_string_buffer(c.encoder_size(capacity, sections))
        policy = c.Policy(capacity // 4, capacity // 8, sections)
        check(library.wt_encoder_new(policy, self.room, len(self.room)))

    def use(self, peer: c.PeerSettings) -> None:
        """The SETTINGS of the peer came."""
        limits = peer.qpack_max_table_capacity, peer.qpack_blocked_streams
        self._instruct(written(library.wt_encoder_limits, self.room, len(self.room), *limits))

    def receive(self, data: bytes) -> int | None:
        """Reads bytes of the peer's decoder stream. Returns the code of the connection if they
        break a rule."""
        before, code = self._unacknowledged(), c_uint64()
        answer = library.wt_encoder_receive(self.room, len(self.room), data, len(data), code)
        if answer == c.ERROR:
            return code.value
        check(answer)
        self.counts[SETTLED] += before - self._unacknowledged()
        return None

    def headers(self, sending: c.Sending, pairs: Fields) -> bytes:
        """The HEADERS frame of these fields. It is to be sent after the instructions."""
        fields, texts = array_of(pairs)
        room, answer, sizes, why = 64, c.BUFFER_TOO_SMALL, (c_size_t(), c_size_t()), c_uint32()
        while answer == c.BUFFER_TOO_SMALL:
            due, out = create_string_buffer(room), create_string_buffer(room)
            answer = library.wt_sending_headers_with(
                *(sending, self.room, len(self.room), fields, len(fields), texts, len(texts)),
                *(due, room, sizes[0], out, room, sizes[1], why),
            )
            room = max(size.value for size in sizes)
        check(answer)
        self._instruct(due.raw[: sizes[0].value])
        return out.raw[: sizes[1].value]

    def _instruct(self, instructions: bytes) -> None:
        self.due += instructions
        self.counts[INSTRUCTED] += len(instructions)

    def _unacknowledged(self) -> int:
        count = c_uint64()
        check(library.wt_encoder_unacknowledged(self.room, len(self.room), count))
        return count.value
