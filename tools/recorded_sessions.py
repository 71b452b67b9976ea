"""Recorded connections with their messages and sessions: what the stacks say that each stream has,
and the streams and datagrams in random orders, cut into pieces."""

from connection_model import Side
from recorded_connections import REQUEST, SESSION, Connection
from session_events import is_done, is_last
from session_model import Surroundings, session_events

# Settings, as the index names them.
DATAGRAMS, EXTENDED = "0x33", "0x8"
DRAFT_02, DRAFT_07, LATER = "0x2b603742", "0xc671706a", "0x14e9cd29"


def encoded(lines):
    """Returns the fields of the index, which have one character for each byte."""
    return [tuple(part.encode("latin-1") for part in line) for line in lines]


def sections_in(said):
    return [encoded(thing["HEADERS"]) for thing in said if "HEADERS" in thing]


class RecordedSessions:
    """A recorded connection in one direction."""

    # The capacity of the dynamic table that its receiver allows.
    table = 0

    def __init__(self, connection):
        self.name, self.streams = connection.name, connection.streams
        self.datagrams = connection.datagrams
        self.side = Side(connection.is_to_server, True)
        settings = [pair for s in self.streams for thing in s.found for pair in thing.get("is", [])]
        self.answers, self.settings = {}, dict(settings)
        self.asked = {s.stream: asked_by(s.other) for s in self.streams if s.opened == REQUEST}
        self.own = {s.stream: s.session for s in self.streams if s.opened == SESSION}
        for stream in self.streams:
            if self.side.is_server and (status := final_status(stream.other)):
                self.answers[stream.stream] = status
        self.by_decision = {}

    # ---- what it has to give

    def allows(self):
        """Returns whether the settings of the sender allow sessions (draft-ietf-webtrans-http3-02
        and -07, section 3.1; RFC 9220, section 3)."""
        value = self.settings.get
        is_on = value(DRAFT_02) == 1 or value(DRAFT_07, 0) > 0 or value(LATER, 0) > 0
        return is_on and value(DATAGRAMS) == 1 and (self.side.is_server or value(EXTENDED) == 1)

    def wanted_of(self, stream, decision):
        """Returns the events of a stream, by what became of its session."""
        key = stream.stream, decision
        if key not in self.by_decision:
            events = self.events_of(stream, decision)
            self.by_decision[key] = with_reset(events) if stream.ended.startswith(
                "reset"
            ) else events
        return self.by_decision[key]

    def events_of(self, stream, decision):
        sections = iter(sections_in(stream.said))

        def fields_of(payload):
            # (one that refers to a dynamic table, RFC 9204, section 4.5.1)
            return None if payload[0] and not self.table else next(sections)

        around = Surroundings(bool(self.settings), self.allows(), answers=self.answers)
        around.states = {stream.session: decision} if stream.session is not None else {}
        around.fields_of, around.has_table = fields_of, bool(self.table)
        fin, asked = stream.ended == "fin", self.asked.get(stream.stream)
        events, _ = session_events(
            self.side, stream.stream, stream.content, fin, around, stream.opened, asked
        )
        return events

    # ---- the index

    def index_fault(self):
        """Returns how the events that are wanted differ from what the index says of the streams."""
        for stream in self.streams:
            events = self.events_of(stream, "open")
            if any(is_last(event) or event == ("malformed",) for event in events):
                continue
            if fault := self.stream_fault(stream, events):
                return f"stream {stream.stream}: {fault}, by the index, and not {events}"
        return None

    def stream_fault(self, stream, events):
        found, said = stream.found, stream.said
        if any(event[0] == "left" and event[2] in ("answer", "settings") for event in events):
            return None
        shown = [event[-2] for event in events if event[0] in FIELDS]
        if shown != sections_in(said):
            return f"the sections {sections_in(said)}"
        goaways = [thing["GOAWAY"] for thing in said if "GOAWAY" in thing]
        if goaways and goaways != [event[1] for event in events if event[0] == "goaway"]:
            return f"the GOAWAYs {goaways}"
        size = sum(len(event[1]) for event in events if event[0] in ("data", "bytes"))
        if size != size_in(found, has_session(events)):
            return f"{found}"
        closes = [(one[1], one[2].encode()) for one in capsules_in(found) if one[0] == CLOSE]
        closed = [event[1:] for event in events if event[0] == "closed"]
        if closes and closes != closed:
            return f"the closes {closes}"
        return None

    # ---- its scripts

    def script(self, rng, size):
        """Returns the script of a random order, in pieces of this size; of random sizes if it is
        0."""
        sizes = iter(lambda: size or rng.choice((1, 2, 3, 5, 8, 40, 1200)), None)
        parts = [
            [line for line in s.lines(sizes) if not line.startswith("reset")]
            for s in self.streams
        ]
        parts += [[f"answer {stream} {status}\n"] for stream, status in self.answers.items()]
        parts.append([f"datagram {content.hex()}\n" for _, content in self.datagrams])
        order = [index for index, lines in enumerate(parts) for _ in lines]
        rng.shuffle(order)
        left = [iter(lines) for lines in parts]
        side = "server" if self.side.is_server else "client"
        head = [f"{side} webtransport\n", *(self.first_line(stream) for stream in self.streams)]
        last = [s.reset_line() for s in self.streams if s.ended.startswith("reset")]
        return "".join([*head, *(next(left[index]) for index in order), *last])

    def first_line(self, stream):
        """Returns the line that comes before the bytes of a stream."""
        if stream.opened == REQUEST:
            return f"request {stream.stream} {self.asked[stream.stream]}".rstrip() + "\n"
        return f"session {stream.stream} {stream.session}\n" if stream.opened == SESSION else ""

    def without_errors(self):
        """Returns the same without the streams that end it, or None if there are none."""
        kept = [s for s in self.streams if not any(map(is_last, self.wanted_of(s, "open")))]
        if len(kept) == len(self.streams):
            return None
        other = Connection(self.name)
        other.streams, other.datagrams = kept, self.datagrams
        return RecordedSessions(other)


def with_reset(events):
    """Returns the events of a stream that is reset at last."""
    events = [event for event in events if event[0] != "left"]
    if is_done(events):
        return events
    is_open = has_session(events) and not any(event[0] in ("closed", "lost") for event in events)
    return [*events, ("lost",) if is_open else ("reset", None)]


def has_session(events):
    """Returns whether a stream is that of a session, by its events."""
    is_asked = any(event[0] == "asked" for event in events)
    is_accepted = any(event[0] == "answered" and event[1] < 300 for event in events)
    return is_asked and is_accepted or any(event[0] == "ready" for event in events)


FIELDS = ("request", "asked", "interim", "response", "ready", "rejected", "trailers")
CLOSE = "CLOSE_WEBTRANSPORT_SESSION"


def capsules_in(found):
    """Returns the capsules that the index has."""
    return [one for thing in found for one in thing.get("capsules", []) if isinstance(one, list)]


def size_in(found, is_session):
    """Returns how many bytes of an application the index has."""
    if is_session:
        return 0
    names = ("DATA", "application bytes")
    sizes = [thing[name] for thing in found for name in names if name in thing]
    is_stream = "session" in found[0] if found else False
    return sum(sizes) + (found[0]["bytes"] if is_stream else 0)


def final_status(said):
    """Returns the status of the final response, or None."""
    statuses = [int(dict(lines).get(b":status", b"0")) for lines in sections_in(said)]
    return next((status for status in statuses if status >= 200), None)


def asked_by(said):
    """Returns what a request asks for, by what the stacks say of it."""
    sections = sections_in(said)
    first = dict(sections[0]) if sections else {}
    if first.get(b":method") == b"HEAD":
        return "head"
    if first.get(b":method") != b"CONNECT":
        return ""
    return "session" if first.get(b":protocol") == b"webtransport" else "connect"
