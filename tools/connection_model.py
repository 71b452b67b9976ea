"""What a stream of a connection has to give, from all of its bytes at once.

It is written from RFC 9114, RFC 9204 and draft-ietf-webtrans-http3-02 and shares no code with the
program. A section is one of RFC 9114. What field sections contain is not judged; which of them are
those of interim responses is said by their number. The own settings allow no dynamic table, unless
a model says otherwise.
"""

from dataclasses import dataclass

# Frames (7.2), by their types.
DATA, HEADERS, CANCEL_PUSH, SETTINGS, PUSH_PROMISE, GOAWAY, MAX_PUSH_ID = 0, 1, 3, 4, 5, 7, 13
HTTP2 = {0x02, 0x06, 0x08, 0x09}
WEBTRANSPORT = 0x41
NAMES = {HEADERS: "HEADERS", SETTINGS: "SETTINGS", GOAWAY: "GOAWAY", MAX_PUSH_ID: "MAX_PUSH_ID"}
# Settings with their defaults, those that are 0 or 1, and those of HTTP/2 (7.2.4.1, 11.2.2).
CAPACITY, LIMIT, BLOCKED, CONNECT, DATAGRAM, WEBTRANSPORT_ON = (
    0x01,
    0x06,
    0x07,
    0x08,
    0x33,
    0x2B603742,
)
DEFAULTS = {CAPACITY: "0", LIMIT: "none", BLOCKED: "0", CONNECT: "0", DATAGRAM: "0"}
DEFAULTS |= {WEBTRANSPORT_ON: "0", 0xC671706A: "0", 0x14E9CD29: "0"}
FLAGS, OF_HTTP2 = {CONNECT, DATAGRAM, WEBTRANSPORT_ON}, {0x00, 0x02, 0x03, 0x04, 0x05}
# The errors of a stream (8.1).
OF_STREAM = {0x10D, 0x10E, 0x170D7B68, 0x3994BD84}
MAX_SECTION, MAX_SETTINGS, MAX_IDLE, MAX_INTERIMS = 65_536, 4096, 1024, 64
# Those of QPACK: RFC 9204, section 4.1.1, asks for 62 bits, and RFC 7541, section 5.1, leaves it to
# the decoder what it reads beyond them.
MAX_INTEGER_BITS, MAX_INTEGER_BYTES = 64, 11
# What comes of a stream by what became of its session.
SESSION_FAULTS = {"over": 0x170D7B68, "refused": 0x3994BD84, "impossible": 0x108}
CRITICAL = {"control", "encoder", "decoder"}


def number_in(content, at, end):
    """Returns the number at an offset and the offset after it, or None if it is not whole before
    the end (RFC 9000, section 16)."""
    if at >= end:
        return None
    size = 1 << (content[at] >> 6)
    if at + size > end:
        return None
    return int.from_bytes(content[at : at + size], "big") % (1 << (8 * size - 2)), at + size


def values_of(pairs):
    """Returns the values of settings in the order of DEFAULTS."""
    given = {name: str(value) for name, value in pairs}
    return tuple(given.get(name, default) for name, default in DEFAULTS.items())


def settings_in(content, at, end):
    """Returns the values of SETTINGS, or the code of their first error (7.2.4; RFC 8441, section 3;
    RFC 9297, section 2.1.1; draft-ietf-webtrans-http3-02, section 3.1)."""
    pairs = {}
    while at < end:
        name = number_in(content, at, end)
        value = name and number_in(content, name[1], end)
        if value is None:
            return 0x106
        at = value[1]
        if name[0] in OF_HTTP2 or name[0] in pairs or (name[0] in FLAGS and value[0] > 1):
            return 0x109
        if name[0] in DEFAULTS:
            pairs[name[0]] = value[0]
    return values_of(pairs.items())


def decoder_fault(content):
    """Returns whether the instructions of a decoder stream are more than Stream Cancellations (RFC
    9204, section 4.4). Their integers have at most MAX_INTEGER_BYTES bytes and are below
    2^MAX_INTEGER_BITS; one that is cut is judged by the bytes that came."""
    at = 0
    while at < len(content):
        if content[at] >> 6 != 1:
            return True
        value, shift, more = content[at] & 63, 0, content[at] & 63 == 63
        at += 1
        while more and at < len(content):
            value += (content[at] & 127) << shift
            more, shift, at = content[at] >= 128, shift + 7, at + 1
            if value >> MAX_INTEGER_BITS or more and shift == 7 * (MAX_INTEGER_BYTES - 1):
                return True
    return False


@dataclass
class Side:
    """The end that reads: whether it is the server, and whether it has WebTransport."""

    is_server: bool
    webtransport: bool


def is_forbidden(side):
    """Returns whether the peer may open no bidirectional stream: a server may not, unless
    WebTransport is enabled (6.1)."""
    return not side.is_server and not side.webtransport


class Model:
    """The events of one stream: its bytes, whether it ends after them, what becomes of each
    session, of those for which it is known, and how many of its sections are those of interim
    responses."""

    # Whether the own settings allow a dynamic table.
    has_table = False

    def __init__(self, side, content, fin, states, interims=0):
        self.side, self.content, self.fin, self.states = side, content, fin, states
        self.interims = interims
        self.at, self.events, self.is_over, self.purpose = 0, [], False, None

    def fault(self, code, of_stream=False):
        scope = "stream" if of_stream or code in OF_STREAM else "connection"
        self.events.append(("fault", code, scope))
        self.is_over = True

    def left(self):
        """Adds how many bytes are left over, where the stream goes on."""
        if not self.is_over and self.at < len(self.content):
            self.events.append(("left", self.at, len(self.content) - self.at))

    def end(self):
        self.events.append(("end",))

    def number(self, at):
        """Returns the number at an offset and the offset after it, or None if it is not whole (RFC
        9000, section 16)."""
        return number_in(self.content, at, len(self.content))

    def head(self):
        """Returns the type and the length of the next frame and the offset after them, or None."""
        kind = self.number(self.at)
        length = kind and self.number(kind[1])
        return (kind[0], *length) if length else None

    # ---- what the stream is for (6.1, 6.2)

    def unidirectional(self):
        first = self.number(0)
        if first is None:
            return self.end() if self.fin else self.left()
        kind, self.at = first
        if kind == 0x54 and self.side.webtransport:
            return self.session(self.end)
        if kind == 1:
            return self.fault(0x103 if self.side.is_server else 0x108)
        self.purpose = {0: "control", 2: "encoder", 3: "decoder"}.get(kind, "ignored")
        self.events.append(("opened", self.at, self.purpose))
        if self.purpose == "control":
            return self.control()
        rest = self.content[self.at :]
        if self.purpose == "encoder" and not self.has_table and rest.strip(b"\x20"):
            return self.fault(0x201)
        if self.purpose == "decoder" and decoder_fault(rest):
            return self.fault(0x202)
        if self.fin and self.purpose in CRITICAL:
            return self.fault(0x104)
        return self.end() if self.fin else None

    def bidirectional(self):
        if is_forbidden(self.side):
            return self.fault(0x103) if self.content or self.fin else None
        first = self.number(0)
        if first is None:
            if not self.fin:
                return self.left()
            if not self.side.is_server:
                return self.fault(0x103) if self.content else self.end()
            return self.fault(0x106 if self.content else 0x10D)
        if first[0] == WEBTRANSPORT and self.side.webtransport:
            self.at = first[1]
            return self.session(lambda: self.fault(0x106))
        if not self.side.is_server:
            return self.fault(0x103)
        self.events.append(("opened", 0, "message"))
        return self.message()

    def session(self, end_within):
        """A stream of a session, from the session's number on."""
        number = self.number(self.at)
        if number is None:
            self.at = 0
            return end_within() if self.fin else self.left()
        session, self.at = number
        if session % 4:
            return self.fault(0x108)
        self.events.append(("opened", self.at, "session", str(session)))
        state = self.states.get(session, "coming")
        if state in SESSION_FAULTS:
            return self.fault(SESSION_FAULTS[state])
        return self.application() if state == "open" else self.left()

    def application(self):
        if self.at < len(self.content):
            self.events.append(("data", self.at, len(self.content)))
        if self.fin:
            self.end()

    # ---- the frames of a message (4.1)

    def message(self):
        sections = idle = told = 0
        while (head := self.head()) is not None:
            kind, size, start = head
            known = self.known_fault(kind, sections)
            if known:
                return self.fault(known)
            has_content = kind == HEADERS or (kind == DATA and size > 0)
            if not has_content and idle == MAX_IDLE:
                return self.fault(0x107)
            if kind == HEADERS and size <= MAX_SECTION and start + size > len(self.content):
                break
            idle = 0 if has_content else idle + 1
            sections += kind == HEADERS
            if not self.take(kind, size, start):
                return self.fault(0x106) if self.fin else None
            if kind == HEADERS and size <= MAX_SECTION and self.interims:
                self.interims -= 1
                if sections == 1 and told == MAX_INTERIMS:
                    return self.fault(0x107, of_stream=True)
                told, sections = (told + 1, 0) if sections == 1 else (told, sections)
        return self.end_of_message(sections)

    def known_fault(self, kind, sections):
        """Returns the code of a frame that may not come after so many sections (4.1, 7.2)."""
        if kind == PUSH_PROMISE:
            return 0x105 if self.side.is_server else 0x108
        if kind in HTTP2 or kind in (CANCEL_PUSH, SETTINGS, GOAWAY, MAX_PUSH_ID):
            return 0x105
        if kind == WEBTRANSPORT and self.side.webtransport:
            return 0x106
        if kind == DATA and sections != 1 or kind == HEADERS and sections == 2:
            return 0x105
        return None

    def take(self, kind, size, start):
        """Takes a frame. Returns whether all of it is there."""
        end = min(start + size, len(self.content))
        if kind == HEADERS and size > MAX_SECTION:
            self.events.append(("skipped", start, size))
        elif kind == HEADERS:
            self.events.append(("frame", "HEADERS", start, end))
        elif kind == DATA and end > start:
            self.events.append(("data", start, end))
        self.at = end
        return start + size == end

    def end_of_message(self, sections):
        if not self.fin:
            return self.left()
        if self.at < len(self.content):
            return self.fault(0x106)
        if sections:
            return self.end()
        return self.fault(0x10D if self.side.is_server else 0x10E)

    # ---- the control stream (6.2.1, 7.2)

    def control(self):
        last = {GOAWAY: None, MAX_PUSH_ID: None}
        has_settings = False
        while (head := self.head()) is not None:
            kind, size, start = head
            code = self.control_fault(kind, size, has_settings)
            if code:
                return self.fault(code)
            is_whole = kind in NAMES or kind == CANCEL_PUSH
            if is_whole and start + size > len(self.content):
                break
            if is_whole and kind != SETTINGS:
                number = self.number(start) if size else None
                code = 0x106
                if number and number[1] == start + size:
                    code = self.number_fault(kind, number[0], last)
                if code:
                    return self.fault(code)
            has_settings = True
            if kind == SETTINGS:
                values = settings_in(self.content, start, start + size)
                if not isinstance(values, tuple):
                    return self.fault(values)
                self.events.append(("settings", start, start + size, values))
            elif is_whole:
                self.events.append(("frame", NAMES[kind], start, start + size))
            self.at = min(start + size, len(self.content))
            if self.at < start + size:
                break
        return self.fault(0x104) if self.fin else self.left()

    def control_fault(self, kind, size, has_settings):
        """Returns the code of a frame by its type and its length."""
        if not has_settings:
            if kind != SETTINGS:
                return 0x10A
            return 0x107 if size > MAX_SETTINGS else None
        if kind in HTTP2 or kind in (DATA, HEADERS, SETTINGS, PUSH_PROMISE):
            return 0x105
        if kind == MAX_PUSH_ID and not self.side.is_server:
            return 0x105
        if kind == WEBTRANSPORT and self.side.webtransport:
            return 0x106
        if kind in (GOAWAY, CANCEL_PUSH, MAX_PUSH_ID) and size > 8:
            return 0x106
        return None

    def number_fault(self, kind, number, last):
        """Returns the code of a frame that is one number (5.2, 7.2.3, 7.2.6, 7.2.7)."""
        if kind == CANCEL_PUSH:
            return 0x108
        before, last[kind] = last[kind], number
        if kind == MAX_PUSH_ID:
            return 0x108 if before is not None and number < before else None
        if not self.side.is_server and number % 4:
            return 0x108
        return 0x108 if before is not None and number > before else None


def events_of(side, stream, content, fin, states, opened=None, interims=0):
    """Returns the events of a stream, and what it is for. `opened` is what this end opened it for:
    "request" or "session"; `interims` says how many sections of a response are those of interim
    ones."""
    model = Model(side, content, fin, states, interims)
    read_stream(model, stream, opened)
    return model.events, model.purpose


def read_stream(model, stream, opened):
    """Has a model read a stream by its ID and by what this end opened it for."""
    if opened == "request":
        model.message()
    elif opened:
        model.application()
    elif stream % 4 >= 2:
        model.unidirectional()
    else:
        model.bidirectional()
