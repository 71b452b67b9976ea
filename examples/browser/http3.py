"""A server's HTTP/3 connection with WebTransport sessions, over an aioquic QuicConnection.

Each event of QUIC is a call of the C library's connection (connection.py), `act` does what the
events of the library require, and after these the streams that wait are read again. What requests
are answered, and what streams and sessions send, is in sessions.py.
"""
from __future__ import annotations

from collections import deque

from aioquic.quic import events
from aioquic.quic.connection import QuicConnection

import connection as wt
import sender
import wtransport
import wtransport_c as c
from application import Application
from connection import DatagramUse, Event, EventKind as Kind, HeadersKind, Purpose
from sessions import Session, Stream

LIMITS = wt.Limits(
    *(4096, 16384),
    max_datagram=1200,
    max_early=4111,
    max_waiting=65536,
    table=4096,
    max_blocked=16,
    max_sections=64,
)
EARLY_DATAGRAMS = 16  # of sessions that are to come
SETTINGS = [
    (c.SETTING_MAX_FIELD_SECTION_SIZE, LIMITS.max_fields),
    (c.SETTING_ENABLE_CONNECT_PROTOCOL, 1),
    (c.SETTING_H3_DATAGRAM, 1),
    (c.SETTING_ENABLE_WEBTRANSPORT, 1),
    (c.SETTING_QPACK_MAX_TABLE_CAPACITY, LIMITS.table),
    (c.SETTING_QPACK_BLOCKED_STREAMS, LIMITS.max_blocked),
    (0x21 + 0x1F * 1000, 7),  # reserved for exercise
]
TYPES = {
    Purpose.CONTROL: c.STREAM_CONTROL,
    Purpose.ENCODER: c.STREAM_QPACK_ENCODER,
    Purpose.DECODER: c.STREAM_QPACK_DECODER,
}
ENDS_NO_WAIT = (Kind.MORE, Kind.WAITS, Kind.DATA, Kind.STREAM_DATA, Kind.SKIPPED)

sender.install()


class Connection:
    """A client's connection, with the own control stream, and those of QPACK once they are needed.
    `own` has their IDs. `handle` takes each event of aioquic."""

    def __init__(self, quic: QuicConnection, application: Application) -> None:
        self.quic, self.application, self.state = quic, application, wt.Connection(LIMITS)
        self.streams: dict[int, Stream] = {}
        self.sessions: dict[int, Session] = {}
        self.early: deque[tuple[int, bytes]] = deque(maxlen=EARLY_DATAGRAMS)
        self.has_changed = self.is_closed = False
        self.own: dict[Purpose, int] = {}
        head = wtransport.write_settings(SETTINGS) + wtransport.write_frame(0x21, b"grease")
        self._send_own(Purpose.CONTROL, head)

    def handle(self, event: events.QuicEvent) -> None:
        """Takes an event of aioquic, and reads the streams again whose wait it may have ended."""
        match event:
            case events.StreamDataReceived(stream_id=number) if stream := self._find(number):
                self._read(stream, event.data, event.end_stream)
            case events.StreamReset(stream_id=number) if stream := self._find(number):
                stream.was_reset(event.error_code)
            case events.StopSendingReceived(stream_id=number) if stream := self._find(number):
                stream.was_stopped(event.error_code)
            case events.StopSendingReceived(stream_id=number):
                for purpose in [p for p, own in self.own.items() if own == number]:
                    self.act(None, self.state.was_stopped(purpose))
            case events.DatagramFrameReceived():
                self.act(None, self.state.datagram(event.data))
            case events.ConnectionTerminated():
                self.is_closed = True
                for session in list(self.sessions.values()):
                    session.end(None, "")
        while self.has_changed:
            self.has_changed = False
            for stream in [s for s in self.streams.values() if s.state and s.state.waits]:
                self._read(stream)
            for _ in range(len(self.early)):
                self._deliver(*self.early.popleft())
        self.send_due()

    def act(self, stream: Stream | None, event: Event, code: int = c.H3_REQUEST_CANCELLED) -> None:
        """Does what an event requires. `code` is that of a reset; not all events have a stream."""
        self.has_changed |= event.kind not in ENDS_NO_WAIT
        application, session = self.application, stream and self.sessions.get(stream.id)
        match event.kind:
            case Kind.CONNECTION_ERROR:
                self.quic.close(event.number, reason_phrase=wtransport.code_name(event.number))
            case Kind.STREAM_ERROR | Kind.MALFORMED:
                stream.abort(event.number)
            case Kind.OPENED if event.detail == Purpose.IGNORED:
                stream.abort(c.H3_STREAM_CREATION_ERROR)
            case Kind.SETTINGS:
                application.settings(wtransport.read_settings(event.data))
            case Kind.HEADERS | Kind.SESSION_REQUESTED if not stream.can_send:
                stream.abort(c.H3_REQUEST_CANCELLED)  # it can have no answer
            case Kind.HEADERS if event.detail == HeadersKind.REQUEST:
                stream.ask(event.fields)
            case Kind.SESSION_REQUESTED:
                stream.ask_session(event.fields)
            case Kind.TOO_LARGE:
                stream.refuse(431)
            case Kind.SESSION_CLOSED:
                session.end(event.number, event.data.decode())
            case Kind.SESSION_LOST if session:
                stream.abort(code)
                session.end(None, "")
            case Kind.JOINED:
                stream.session = self.sessions[event.number]
            case Kind.STREAM_DATA:
                application.received(stream, event.data, False)
            case Kind.DATAGRAM:
                self._deliver(stream.id if stream else event.number, event.data)
            case Kind.END:
                stream.was_ended()
            case Kind.RESET if stream.session:
                application.was_reset(stream, wtransport.to_application(code))
            case Kind.RESET:
                stream.abort(event.number if event.detail else c.H3_REQUEST_CANCELLED)

    def _find(self, number: int) -> Stream | None:
        """The stream with an ID, which begins if it is new and the peer's; None if it is over."""
        if number not in self.streams and (state := self.state.accept(number)):
            self.streams[number] = Stream(self, number, state)
        return self.streams.get(number)

    def _read(self, stream: Stream, chunk: bytes = b"", end: bool = False) -> None:
        for event in stream.state.receive(chunk, end):
            self.act(stream, event)
        if stream.state.is_over:
            stream.end(receiving=True)

    def send_due(self) -> None:
        """Sends what is due on the own streams of QPACK."""
        state = self.state
        for purpose, of in ((Purpose.ENCODER, state.encoder), (Purpose.DECODER, state.table)):
            due, of.due = of.due, b""
            if due:
                self._send_own(purpose, due)

    def _send_own(self, purpose: Purpose, data: bytes) -> None:
        """Sends bytes on an own stream, which is opened for the first of them."""
        if purpose not in self.own:
            self.own[purpose] = self.quic.get_next_available_stream_id(is_unidirectional=True)
            data = wtransport.write_stream_header(TYPES[purpose]) + data
        self.quic.send_stream_data(self.own[purpose], data)

    def _deliver(self, session: int, payload: bytes) -> None:
        """Does with a datagram what is known of its session says."""
        match self.state.datagram_use(session):
            case DatagramUse.DELIVER:
                self.application.datagram(self.sessions[session], payload)
            case DatagramUse.EARLY:
                self.early.append((session, payload))
            case DatagramUse.END_STREAM if session in self.streams:
                self.streams[session].abort(c.H3_DATAGRAM_ERROR)
