"""Streams and sessions of a connection: how requests are answered, and what is sent."""
from __future__ import annotations

import contextlib
from dataclasses import dataclass
from typing import TYPE_CHECKING

import wtransport
import wtransport_c as c
from connection import Asked, Response, Stream as State
from wtransport import Fields

if TYPE_CHECKING:
    from http3 import Connection

DRAFT_02 = (b"sec-webtransport-http3-draft02", b"1")
DRAFT_02_ANSWER = (b"sec-webtransport-http3-draft", b"draft02")
ASKED = {b"HEAD": Asked.HEAD, b"CONNECT": Asked.CONNECT}  # by methods


@dataclass(eq=False)
class Stream:
    """A stream of a connection. `state` is that of the peer's half, if it has one, `session` the
    session that it belongs to, and `fields` are those of a request, with its `response`."""

    connection: Connection
    id: int
    state: State | None
    session: Session | None = None
    fields: Fields = ()
    response: Response | None = None

    def __post_init__(self) -> None:
        self.is_bidirectional, self.can_receive = self.id % 4 < 2, self.state is not None
        self.can_send = self.is_bidirectional or not self.can_receive

    def end(self, sending: bool = False, receiving: bool = False) -> None:
        """A half is over; the stream is forgotten when both are."""
        self.can_send &= not sending
        self.can_receive &= not receiving
        if not self.can_send and not self.can_receive:
            self.connection.streams.pop(self.id, None)
            self.connection.state.forget(self.id)

    # ---- What is sent ----

    def send(self, data: bytes, end: bool = False) -> None:
        if self.can_send:
            self.connection.quic.send_stream_data(self.id, data, end)
            self.end(sending=end)

    def respond(
        self, status: int, fields: Fields = (), content: bytes = b"", end: bool = True
    ) -> None:
        """Sends a response, after the instructions for its head, and ends it or not."""
        if self.can_send:
            data = self.response.headers(status, fields)
            data += self.response.data(content) if content else b""
            if end:
                self.response.finish()
            self.connection.send_due()
            self.send(data, end)

    def reset(self, code: int) -> None:
        """Resets the own half with an application's code."""
        self._reset(wtransport.to_http3(code))

    def stop(self, code: int) -> None:
        """Asks the peer to send no more, with an application's code."""
        self._stop(wtransport.to_http3(code))

    def abort(self, number: int) -> None:
        """Ends both halves with an HTTP/3 code; what still comes is dropped."""
        self._reset(number)
        self._stop(number)
        self.abandon()

    def abandon(self) -> None:
        """Reads the stream no further."""
        if self.can_receive:
            event = self.state.abandon()
            self.end(receiving=True)
            self.connection.act(self, event)

    def _reset(self, number: int) -> None:
        if self.can_send:
            self.connection.quic.reset_stream(self.id, number)
            self.end(sending=True)

    def _stop(self, number: int) -> None:
        if self.can_receive:
            with contextlib.suppress(ValueError):  # it has ended, and aioquic has dropped it
                self.connection.quic.stop_stream(self.id, number)

    # ---- What comes ----

    def ask(self, fields: Fields) -> None:
        """A request came, which is answered when it has ended. CONNECT is for no session here."""
        self.fields, asked = fields, ASKED.get(dict(fields)[b":method"], Asked.OTHER)
        self.response = self.connection.state.respond(self.id, asked)
        if asked == Asked.CONNECT:
            self.refuse(501)

    def ask_session(self, fields: Fields) -> None:
        """A request for a session came."""
        connection, self.fields = self.connection, fields
        self.response = connection.state.respond(self.id, Asked.SESSION)
        session = Session(self, dict(fields)[b":path"].decode("utf-8", "replace"))
        status = connection.application.session(session, fields)
        if status != 200:
            self.refuse(status)
            return
        self.respond(status, [DRAFT_02_ANSWER] if DRAFT_02 in fields else [], end=False)
        self.state.answer(status)
        connection.sessions[self.id] = session
        connection.application.opened(session)

    def refuse(self, status: int) -> None:
        """Answers a request of which no more is read."""
        self.response = self.response or self.connection.state.respond(self.id, Asked.OTHER)
        self.respond(status)
        self.state.answer(status)
        self._stop(c.H3_NO_ERROR)
        self.abandon()

    def was_ended(self) -> None:
        """The peer sends no more: a request is answered, and with HEAD without the content."""
        if self.session:
            self.connection.application.received(self, b"", True)
        elif self.fields:
            status, fields, content = self.connection.application.request(self.fields)
            is_head = (b":method", b"HEAD") in self.fields
            self.respond(status, fields, b"" if is_head else content)

    def was_reset(self, code: int) -> None:
        """The peer reset its half."""
        event = self.state.was_reset()
        self.end(receiving=True)
        self.connection.act(self, event, code)

    def was_stopped(self, code: int) -> None:
        """The peer asked to send no more, and aioquic has reset the own half."""
        if self.state:
            self.connection.act(self, self.state.was_stopped())
        self.end(sending=True)
        if self.fields:
            self.abort(c.H3_REQUEST_CANCELLED)
        elif self.session:
            self.connection.application.was_stopped(self, wtransport.to_application(code))


@dataclass(eq=False)
class Session:
    """A session that a client requested on `stream`, which has its ID."""

    stream: Stream
    path: str

    def open_stream(self, bidirectional: bool) -> Stream:
        """Opens a stream, and writes its header."""
        connection, session = self.stream.connection, self.stream.id
        number = connection.quic.get_next_available_stream_id(is_unidirectional=not bidirectional)
        state = connection.state.stream_of(session) if bidirectional else None
        stream = connection.streams[number] = Stream(connection, number, state, self)
        if bidirectional:
            stream.send(wtransport.write_session_frame(session))
        else:
            stream.send(wtransport.write_stream_header(c.STREAM_WEBTRANSPORT, session))
        return stream

    def send_datagram(self, payload: bytes) -> None:
        datagram = wtransport.write_datagram(self.stream.id, payload)
        self.stream.connection.quic.send_datagram_frame(datagram)

    def close(self, code: int, reason: str) -> None:
        """Closes the session: its last DATA frame has the close capsule."""
        self.stream.send(wtransport.write_close(code, reason), True)
        self.end(code, reason)
        self.stream.abandon()

    def end(self, code: int | None, reason: str) -> None:
        """The session is over: its own stream ends, and the others are reset and stopped."""
        connection = self.stream.connection
        if connection.sessions.pop(self.stream.id, None):
            self.stream.send(b"", True)
            for stream in [s for s in connection.streams.values() if s.session is self]:
                stream.abort(c.WEBTRANSPORT_SESSION_GONE)
            connection.application.closed(self, code, reason)
