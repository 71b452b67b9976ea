"""Connections of the C library (c/include/wtransport_connection.h): what is next on each stream.

A `Connection` and its `Stream`s are words of the library. Every event is an `Event`.
"""
from __future__ import annotations

from collections import Counter
from ctypes import Array, c_uint32, c_uint64, create_string_buffer
from dataclasses import dataclass
from enum import IntEnum
from typing import Any, Callable, Iterator

import wtransport_c as c
from table import Encoder, Table
from wtransport import Fields, check, library, written


def _numbers(name: str, prefix: str) -> type[IntEnum]:
    """The constants of the header that begin with a prefix, by their names after it."""
    found = {key: value for key, value in vars(c).items() if key.startswith(prefix)}
    return IntEnum(name, {key.removeprefix(prefix): found[key] for key in found})


EventKind = _numbers("EventKind", "EVENT_")
Purpose = _numbers("Purpose", "PURPOSE_")
HeadersKind = _numbers("HeadersKind", "HEADERS_")
Waits = _numbers("Waits", "WAITS_")
Known = _numbers("Known", "KNOWN_")
DatagramUse = _numbers("DatagramUse", "DATAGRAM_")
Asked = _numbers("Asked", "ASKED_")
PAUSES = (EventKind.MORE, EventKind.WAITS)


@dataclass(frozen=True)
class Event:
    """What is next on a stream. `detail` and `number` depend on its kind, as the header says;
    `data` is a payload, a piece of content, a datagram or the reason of a close."""

    kind: EventKind
    detail: int = 0
    number: int = 0
    data: bytes = b""
    fields: Fields = ()


@dataclass(frozen=True)
class Limits:
    """In bytes: the largest encoded and decoded field sections that are read, the longest datagram
    of a capsule, what is held of a stream that waits for its session, or for something else, and
    the capacity of QPACK's dynamic table, and of that of the peer at most. `max_blocked` streams
    may wait for the table, and `max_sections` that are not acknowledged refer to the peer's."""

    max_section: int
    max_fields: int
    max_datagram: int
    max_early: int
    max_waiting: int
    table: int
    max_blocked: int
    max_sections: int


class Connection:
    """A server's connection, with WebTransport and datagrams, and the streams of the peer on it.
    `counts` counts what its tables of QPACK were used for."""

    def __init__(self, limits: Limits) -> None:
        self.words, self.limits, self.counts = c.Connection(), limits, Counter()
        self.table = Table(limits.table, self.counts)
        self.encoder = Encoder(limits.table, limits.max_sections, self.counts)
        self.streams: dict[int, Stream] = {}
        self.over: dict[int, Known] = {}  # of streams that are over: what is known of their IDs
        sizes = limits.max_section, limits.max_fields, limits.max_datagram
        endpoint = c.Endpoint(c.SIDE_SERVER, 1, 1, 1, *sizes)
        check(library.wt_connection_new(c.ABI, endpoint, self.words))

    def accept(self, stream_id: int) -> Stream | None:
        """Begins a stream that the peer opened; None if it is over, or is not the peer's."""
        if stream_id % 2 == 1 or stream_id in self.over:
            return None
        stream = self.streams[stream_id] = Stream(self, stream_id)
        check(library.wt_stream_accept(self.words, stream_id, stream.words))
        return stream

    def stream_of(self, session: int) -> Stream:
        """Begins the peer's half of a bidirectional stream that was opened here for a session."""
        stream = Stream(self)
        check(library.wt_stream_of_session(session, stream.words))
        return stream

    def forget(self, stream_id: int) -> None:
        """Both halves of a stream are over: only what is known of its ID is kept."""
        if stream_id in self.streams:
            self.over[stream_id] = self.known(stream_id)
            del self.streams[stream_id]

    def count_blocked(self) -> Iterator[Event]:
        """The error of the connection if too many streams wait for the table."""
        waiting = sum(stream.waits == Waits.TABLE for stream in self.streams.values())
        if waiting > self.limits.max_blocked:
            event = c.Event()
            check(library.wt_too_many_blocked(self.words, event))
            yield _event_of(event)

    def respond(self, stream_id: int, asked: Asked) -> Response:
        """Begins the response to a request, by what it asks for."""
        response, why = Response(self.encoder), c_uint32()
        call = library.wt_sending_response
        check(call(self.words, stream_id, asked, response.words, why))
        return response

    def use_settings(self) -> None:
        """The SETTINGS of the peer came."""
        peer = c.PeerSettings()
        check(library.wt_connection_settings(self.words, peer))
        self.encoder.use(peer)

    def known(self, session: int) -> Known:
        """What is known of a session."""
        known, its = c_uint32(), self.streams.get(session)
        words = its.words if its else None
        check(library.wt_session_known(self.words, session, words, its is not None, known))
        return self.over.get(session, Known(known.value))

    def was_stopped(self, purpose: Purpose) -> Event:
        """The peer asked to stop a unidirectional stream that was opened here."""
        code = c_uint64()
        answer = library.wt_stopped(self.words, purpose, code)
        if answer == c.ERROR:
            return Event(EventKind.CONNECTION_ERROR, number=code.value)
        check(answer)
        return Event(EventKind.MORE)

    def datagram(self, data: bytes) -> Event:
        """Reads a QUIC datagram."""
        event = c.Event()
        check(library.wt_datagram_receive(self.words, data, len(data), event))
        return _event_of(event, data)

    def datagram_use(self, session: int) -> DatagramUse:
        """What to do with a datagram of a session."""
        return DatagramUse(library.wt_datagram_use(self.known(session)))


class Response:
    """What is sent on the stream of a request."""

    def __init__(self, encoder: Encoder) -> None:
        self.words, self.encoder = c.Sending(), encoder

    def headers(self, status: int, fields: Fields) -> bytes:
        """The head of the response."""
        return self.encoder.headers(self.words, [(b":status", b"%d" % status), *fields])

    def data(self, content: bytes) -> bytes:
        """Content, which may not be empty."""
        why = c_uint32()
        head = written(library.wt_sending_data, self.words, len(content), after=[why])
        check(library.wt_sending_sent(self.words, len(content), why))
        return head + content

    def finish(self) -> None:
        """The stream ends."""
        check(library.wt_sending_finish(self.words, c_uint32()))


class Stream:
    """The peer's half of a stream: its state, and the bytes that are held of it. `waits` is what it
    waits for, and `session` the session if that is one. `id` is None for a stream of a session,
    which needs no dynamic table. The encoder reads the decoder stream, if it `is_decoder`."""

    def __init__(self, connection: Connection, stream_id: int | None = None) -> None:
        self.connection, self.words, self.hold = connection, c.Stream(), c.Hold()
        self.id, self.is_decoder = stream_id, False
        self.waits, self.session = Waits.NOTHING, 0
        self._room = create_string_buffer(0)  # has the bytes that are held
        self._capsule = create_string_buffer(0)  # has those of a capsule that is cut
        self._capsule_held = 0

    @property
    def held(self) -> int:
        """How many bytes wait for more."""
        return self.hold.end - self.hold.start + self._capsule_held

    @property
    def is_over(self) -> bool:
        """The end came, and all before it was read."""
        return self.hold.fin == 1 and not self.waits

    def receive(self, chunk: bytes = b"", end: bool = False) -> Iterator[Event]:
        """What is next on the stream, of which a chunk came, until it needs more or waits. It joins
        its session by itself."""
        if self.waits == Waits.SESSION:
            yield self._join(self.session)
        event = Event(EventKind.SKIPPED)
        while event.kind not in PAUSES:
            if self.is_decoder:  # nothing is held of it, and its end alone is read here
                yield from self._tell_encoder(chunk)
                chunk = b""
            event = self._next(chunk, end)
            chunk = chunk[self.hold.taken :]
            if event.kind in PAUSES:
                event = self._keep(event, len(chunk))
            yield self._join(event.number) if event.kind == EventKind.JOINS else event
        waits = event.kind == EventKind.WAITS
        self.waits, self.session = (Waits(event.detail), event.number) if waits else (0, 0)
        if self.waits == Waits.TABLE:
            yield from self.connection.count_blocked()

    def answer(self, status: int) -> None:
        """Says that a CONNECT request is answered with this status."""
        check(library.wt_stream_answer(self.words, status))

    def was_reset(self) -> Event:
        """The peer reset the stream."""
        return self._change(library.wt_stream_reset, drops=True)

    def was_stopped(self) -> Event:
        """The peer asked to stop the own half of a bidirectional stream."""
        return self._change(library.wt_stream_stop)

    def abandon(self) -> Event:
        """The stream is read no further."""
        return self._change(library.wt_stream_abandon, drops=True)

    def _next(self, chunk: bytes, end: bool) -> Event:
        limits, table, event = self.connection.limits, self.connection.table, c.Event()
        fields, texts = _arrays(limits)
        room = (None, 0) if self.id is None else (table.room, len(table.room))
        check(
            library.wt_receive_pushed(
                *(self.connection.words, self.words, self._capsule, len(self._capsule), *room),
                *(self.hold, self._room, len(self._room), chunk, len(chunk), end),
                *(event, fields, len(fields), texts, len(texts)),
            )
        )
        self._capsule_held = event.held
        if self.id is not None:
            table.was_read(self.id, event.number if event.kind == EventKind.INSERTED else None)
        match EventKind(event.kind):
            case EventKind.SESSION_REQUESTED:
                self._capsule = create_string_buffer(max(1028, limits.max_datagram))
            case EventKind.OPENED:
                self.is_decoder = event.detail == Purpose.DECODER
            case EventKind.SETTINGS:
                self.connection.use_settings()
        return _event_of(event, self._room if self.hold.in_array else chunk, fields, texts)

    def _tell_encoder(self, chunk: bytes) -> Iterator[Event]:
        """Gives the encoder bytes of the decoder stream: the error of the connection, if they have
        one."""
        code = self.connection.encoder.receive(chunk)
        if code is not None:
            yield Event(EventKind.CONNECTION_ERROR, number=code)

    def _keep(self, event: Event, more: int) -> Event:
        """Makes room for so many bytes beside those that are held, and ends a stream of which too
        many wait. Returns the event, or what comes in its place."""
        limits, size = self.connection.limits, self.hold.end - self.hold.start + more
        is_early = event.kind == EventKind.WAITS and event.detail == Waits.SESSION
        if size > (limits.max_early if is_early else limits.max_waiting):
            return self._change(library.wt_stream_overflow, drops=True)
        if more == 0:
            return event
        least = max(4112, limits.max_section + 16)
        self._room = create_string_buffer(self._room.raw, max(least, size))
        return Event(EventKind.SKIPPED)

    def _join(self, session: int) -> Event:
        """Says what is known of the session of the stream."""
        return self._change(library.wt_stream_join, self.connection.known(session))

    def _change(self, call: Callable[..., int], *arguments: Any, drops: bool = False) -> Event:
        """What a call says of the stream; `drops`: the bytes that are held are lost."""
        event = c.Event()
        check(call(self.connection.words, self.words, *arguments, event))
        self._capsule_held = event.held
        if event.kind == EventKind.JOINED:
            self.id = None
        if drops:
            if self.id is not None and self.id % 4 < 2 and not self.is_over:
                self.connection.table.was_dropped(self.id)
            self.hold = c.Hold()
        return _event_of(event)


_made: dict[Limits, tuple[Array, Array]] = {}


def _arrays(limits: Limits) -> tuple[Array, Array]:
    """Room for the fields of every event, and for their texts or other bytes."""
    if limits not in _made:
        texts = max(limits.max_fields, limits.max_datagram, c.MAX_CLOSE_REASON)
        fields = (c.Field * (limits.max_fields // 32))()
        _made[limits] = fields, create_string_buffer(texts)
    return _made[limits]


def _event_of(event: c.Event, data: Any = b"", fields: Any = (), texts: Any = b"") -> Event:
    """The event of a struct, with copies of its bytes."""
    text = texts[: event.used]
    pairs = [
        (text[f.name_offset :][: f.name_length], text[f.value_offset :][: f.value_length])
        for f in fields[: event.fields]
    ]
    piece = data[event.offset : event.offset + event.length]
    if event.length == 0 and not pairs:
        piece = text
    return Event(EventKind(event.kind), event.detail, event.number, piece, pairs)
