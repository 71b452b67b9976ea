"""What a stream of a connection has to give with its message or its session, from all its bytes.

It goes on where tools/connection_model.py ends: the frames of a message have fields and content
(RFC 9114, section 4; tools/message_rules.py), a CONNECT request is answered, and the content of a
session has capsules (RFC 9297, section 3; draft-ietf-webtrans-http3-02, section 5).

An event has the offset of the byte after it, if that does not depend on how the stream is cut.
"""

from dataclasses import dataclass, field

from connection_model import DATA, HEADERS, HTTP2, MAX_IDLE, MAX_INTERIMS, MAX_SECTION, Model
from connection_model import CANCEL_PUSH, GOAWAY, MAX_PUSH_ID, PUSH_PROMISE, SETTINGS, WEBTRANSPORT
from connection_model import SESSION_FAULTS, number_in, read_stream
from message_rules import expected_length, is_malformed_request, is_malformed_response
from message_rules import is_malformed_section, status_of

KNOWN_FRAMES = {HEADERS, CANCEL_PUSH, SETTINGS, PUSH_PROMISE, GOAWAY, MAX_PUSH_ID} | HTTP2
# Capsules (RFC 9297, section 3.5; draft-ietf-webtrans-http3-02, section 5, and later ones).
DATAGRAM, CLOSE, DRAIN = 0x00, 0x2843, 0x78AE
MAX_LIST, MAX_DATAGRAM = 65_536, 65_535
# The longest values of capsules: more is an error at the head of the capsule.
LONGEST = {CLOSE: 4 + 1024, DRAIN: 0}
MESSAGE, UNDECODABLE, UNEXPECTED = 0x10E, 0x200, 0x105


@dataclass
class Surroundings:
    """What the events of a stream depend on beside its bytes: whether the settings of the peer
    came, and allow sessions; the answers to requests by their streams; what became of the sessions
    of streams; what a section's payload has: its fields, or None if it cannot be decoded; and
    whether the own settings allow a dynamic table."""

    settings: bool = False
    allows: bool = False
    extended: bool = True
    answers: dict = field(default_factory=dict)
    states: dict = field(default_factory=dict)
    fields_of: object = None
    has_table: bool = False


class SessionModel(Model):
    """The events of one stream, for which this end asked for something if it is a response."""

    def __init__(self, side, stream, content, fin, around, asked=None):
        super().__init__(side, content, fin, around.states)
        self.stream, self.around, self.asked = stream, around, asked
        self.has_table = around.has_table
        # How far the message is: it has no header section yet, then content may come, then nothing
        # more; or it is a tunnel, or a session.
        self.stage, self.length, self.interim_count = "head", None, 0
        self.capsules, self.has_closed = b"", False

    # ---- events

    def translated(self):
        """Returns the events, those of frames as those of a connection with sessions."""
        return joined_events([self.translate(event) for event in self.events])

    def translate(self, event):
        name, content = event[0], self.content
        if name == "opened" and event[2] == "session":
            return ("joins", int(event[3]), event[1])
        if name == "opened":
            return ("opened", event[2], event[1])
        if name == "settings":
            return (name, content[event[1] : event[2]], event[3], event[2])
        if name == "frame" and event[1] == "GOAWAY":
            return ("goaway", number_in(content, event[2], event[3])[0], event[3])
        if name == "frame":
            return (name, event[1], content[event[2] : event[3]], event[3])
        if name == "data" and isinstance(event[1], int):
            return ("bytes", content[event[1] : event[2]], event[2])
        if name == "left" and isinstance(event[2], int):
            return (name, event[2], "session" if self.waits else "bytes")
        return ("end", len(content)) if event == ("end",) else event

    waits = False

    def session(self, end_within):
        """A stream of a session (see the base)."""
        super().session(end_within)
        opened = [event for event in self.events if event[0] == "opened"]
        if not opened:
            return
        state = self.states.get(int(opened[0][3]), "coming")
        place = self.events.index(opened[0]) + 1
        self.waits = state == "coming"
        if state == "open":
            self.events.insert(place, ("joined", int(opened[0][3]), self.at_head))
        elif self.waits and not any(event[0] == "left" for event in self.events):
            self.events.append(("left", 0, "session"))

    @property
    def at_head(self):
        """The offset after the header of a stream of a session."""
        return self.number(self.number(0)[1])[1]

    # ---- the frames of a message

    def message(self):
        idle = 0
        while not self.is_over and (head := self.head()) is not None:
            if self.has_closed:
                break
            kind, size, start = head
            if code := self.frame_fault(kind):
                return self.end_by(code)
            has_content = kind == HEADERS or (kind == DATA and size > 0)
            if not has_content and idle == MAX_IDLE:
                return self.end_by(0x107)
            idle = 0 if has_content else idle + 1
            if kind == HEADERS and size > MAX_SECTION:
                self.skip(size, start)
            elif kind == HEADERS:
                if start + size > len(self.content):
                    break
                if not self.section(start, start + size):
                    return None
            elif not self.take_frame(kind, size, start):
                break
        return None if self.is_over else self.end_of_stream()

    def frame_fault(self, kind):
        """Returns the code of a frame that may not come here, by its type."""
        if self.stage in ("tunnel", "session"):
            if kind == WEBTRANSPORT and self.side.webtransport:
                return 0x106
            return UNEXPECTED if kind in KNOWN_FRAMES else None
        return self.known_fault(kind, {"head": 0, "content": 1, "trailers": 2}[self.stage])

    def end_by(self, code, of_stream=False):
        """Ends the stream by an error. A session that is open is lost by that of its stream."""
        was_open = self.stage == "session" and not self.has_closed
        self.fault(code, of_stream)
        if was_open and self.events[-1][2] == "stream":
            self.events.append(("lost",))

    def malformed(self):
        self.events.append(("malformed",))
        self.is_over = True

    def too_large(self, size, end):
        """A section above the limits. Without its header section a message is read no further."""
        self.events.append(("large", size, end))
        self.is_over = self.stage == "head"
        if self.stage == "content":
            self.stage = "trailers"

    def skip(self, size, start):
        """Skips a section of this size."""
        self.too_large(size, start)
        self.at = min(start + size, len(self.content))
        if self.fin and self.at < start + size and not self.is_over:
            self.end_by(0x106)

    def take_frame(self, kind, size, start):
        """Takes a frame that is no HEADERS. Returns whether the stream goes on after it."""
        end = min(start + size, len(self.content))
        piece = self.content[start:end]
        if kind == DATA:
            if self.stage == "content" and self.length is not None:
                # (a frame of which no byte of the payload came is judged by its end alone)
                if size > self.length and piece:
                    self.malformed()
                    return False
                self.length -= size
            if self.stage == "session":
                self.read_capsules(piece, end)
                if self.is_over:
                    return False
            elif piece:
                self.events.append(("data", piece, end))
        self.at = end
        if start + size > end and self.fin:
            self.end_by(0x106)
        return start + size == end

    def end_of_stream(self):
        """The end, or what is left over."""
        if self.has_closed and self.at < len(self.content):
            return self.end_by(MESSAGE)
        if not self.fin:
            return self.left()
        if self.at < len(self.content):
            return self.end_by(0x106)
        if self.stage == "head":
            return self.fault(0x10D if self.side.is_server else MESSAGE)
        if self.stage in ("content", "trailers") and self.length:
            return self.malformed()
        if self.stage == "session" and not self.has_closed:
            if self.capsules:
                return self.end_by(MESSAGE)
            self.events.append(("closed", 0, b""))
        return self.end()

    # ---- field sections

    def section(self, start, end):
        """Takes a field section. Returns whether the stream goes on after it."""
        payload = self.content[start:end]
        fields = self.around.fields_of(payload)
        if fields is None:
            self.fault(UNDECODABLE)
        elif sum(len(name) + len(value) + 32 for name, value in fields) > MAX_LIST:
            self.too_large(None, end)
            self.at = end
        elif self.stage == "content":
            self.trailers(fields, end)
        elif self.asked is None:
            self.request(fields, start, end)
        else:
            self.response(fields, end)
        return not self.is_over

    def trailers(self, fields, end):
        if is_malformed_section(fields, "trailers"):
            return self.malformed()
        self.events.append(("trailers", fields, end))
        self.stage, self.at = "trailers", end
        return None

    def request(self, fields, start, end):
        if is_malformed_request(fields, self.around.extended):
            return self.malformed()
        first = dict(fields)
        is_connect = first[b":method"] == b"CONNECT"
        is_session = self.side.webtransport and first.get(b":protocol") == b"webtransport"
        if is_session and not self.around.settings:
            self.events.append(("left", len(self.content) - start, "settings"))
            self.is_over = True
            return None
        is_session = is_session and self.around.allows
        self.events.append(("asked" if is_session else "request", fields, end))
        self.at, self.stage = end, "content"
        self.length = expected_length(fields)
        return self.answered(is_session) if is_connect else None

    def answered(self, is_session):
        """The server reads nothing more of a CONNECT request until it is answered."""
        status = self.around.answers.get(self.stream)
        if status is None:
            self.events.append(("left", len(self.content) - self.at, "answer"))
            self.is_over = True
            return
        self.events.append(("answered", status))
        if status < 300:
            self.stage = "session" if is_session else "tunnel"

    def response(self, fields, end):
        if is_malformed_response(fields, self.asked):
            return self.malformed()
        status = status_of(fields)
        if status < 200:
            if self.interim_count == MAX_INTERIMS:
                return self.fault(0x107, of_stream=True)
            self.interim_count, self.at = self.interim_count + 1, end
            self.events.append(("interim", status, fields, end))
            return None
        is_success, self.stage, self.at = status < 300, "content", end
        self.length = expected_length(fields, status, self.asked)
        name = "response"
        if self.asked == "session":
            name = "ready" if is_success else "rejected"
        if is_success and self.asked in ("session", "connect"):
            self.stage = "session" if self.asked == "session" else "tunnel"
        self.events.append((name, status, fields, end))
        return None

    # ---- capsules

    def read_capsules(self, piece, end):
        """Takes content of a session, up to this offset."""
        self.capsules += piece
        while self.capsules:
            if self.has_closed:
                return self.end_by(MESSAGE)
            kind = number_in(self.capsules, 0, len(self.capsules))
            size = kind and number_in(self.capsules, kind[1], len(self.capsules))
            if size is None:
                return None
            if size[0] > LONGEST.get(kind[0], size[0]):
                return self.end_by(MESSAGE)
            after = size[1] + size[0]
            if after > len(self.capsules):
                return None
            value, self.capsules = self.capsules[size[1] : after], self.capsules[after:]
            if not self.take_capsule(kind[0], value):
                return self.end_by(MESSAGE)
        return None

    def take_capsule(self, kind, value):
        """Takes a capsule. Returns whether it is valid."""
        if kind == CLOSE:
            if len(value) < 4:
                return False
            try:
                value[4:].decode("utf-8")
            except UnicodeDecodeError:
                return False
            self.events.append(("closed", int.from_bytes(value[:4], "big"), value[4:]))
            self.has_closed = True
        elif kind == DRAIN:
            self.events.append(("draining",))
        elif kind == DATAGRAM and len(value) <= MAX_DATAGRAM:
            self.events.append(("datagram", value))
        return True


def joined_events(events):
    """Returns events, of which pieces that follow one another are one."""
    found, pieces = [], []
    for place, event in enumerate(events):
        if event[0] not in ("data", "bytes"):
            found.append(event)
            continue
        pieces.append(event[1])
        if place + 1 == len(events) or events[place + 1][0] != event[0]:
            found.append((event[0], b"".join(pieces), event[2]))
            pieces = []
    return found


def session_events(side, stream, content, fin, around, opened=None, asked=None):
    """Returns the events of a stream. `opened` is what this end opened it for: "request", which
    asked for something, or "session"."""
    model = SessionModel(side, stream, content, fin, around, asked)
    read_stream(model, stream, opened)
    return model.translated(), model.purpose


# What comes of a stream of a session, by the code of its error.
DECISIONS = {code: state for state, code in SESSION_FAULTS.items()}
