"""Random scripts of whole connections (tools/random_sessions.py) as wt_recorded plays them to a
connection of vesgrauf, in the same three ways. It tells no frames, no purposes of streams and no
offsets; what it tells of each stream has to be what tools/session_model.py says of its bytes."""

from connection_model import CRITICAL, DEFAULTS, LIMIT
from message_bytes import section
from random_sessions import CLOSED_CRITICAL, INCOMPLETE, SessionScript
from random_streams import Batch
from nghttp3_sections import fields_of
from session_model import DECISIONS, Surroundings, session_events
from whole_events import OUTPUTS, joined_pieces, whole_events_in
from whole_rows import CANCELLED, FIRST_CODE, REQUESTS

GONE, MESSAGE, TOO_LARGE = 0x170D7B68, 0x10E, 0x107
UNTOLD = {"opened", "joins", "frame", "left"}
OF_RESPONSE = {"response", "ready", "rejected"}
# What a stream ends with, and what says nothing of the peer's half.
LAST = {"gone", "broken", "reset"}
OF_CONNECTION = {"settings", "goaway"}


class WholeScript(SessionScript):
    """A connection without what a program of a whole connection cannot do: streams of its own in
    sessions that do not open, and the end of reading."""

    def __init__(self, seed):
        super().__init__(seed)
        self.streams = [stream for stream in self.streams if stream.opened != "session"]
        for stream in self.streams:
            stream.left_by = "reset" if stream.left_by == "reset" else ""
        settings = [event[2] for _, event in self.said() if event[0] == "settings"]
        self.settings = settings[0] if settings else None
        sessions = set(self.maker.sessions) if self.allows(self.settings) else set()
        self.datagrams = [one for one in self.datagrams if one and one[0] * 4 in sessions]
        self.first = next((s for s, event in self.said() if event[0] == "settings"), None)

    def said(self):
        """Yields the streams in one direction, and the events of each."""
        for stream in self.streams:
            if stream.stream % 4 >= 2:
                for event in self.modelled(stream, "coming")[0]:
                    yield stream, event

    def can_be_played(self):
        """Returns whether a client may ask for the sessions that it asks for, the server accepts
        its sections, and no stream is there twice of which there may be one."""
        asks = not self.side.is_server and "session" in self.asked.values()
        return (
            not self.twins
            and (not asks or self.allows(self.settings))
            and (self.side.is_server or self.accepts_requests())
        )

    def accepts_requests(self):
        """Returns whether no request is larger than the server accepts (RFC 9114, 4.2.2)."""
        limit = dict(zip(DEFAULTS, self.settings or ())).get(LIMIT, "none")
        sizes = (
            sum(len(name) + len(value) + 32 for name, value in REQUESTS[asked])
            for asked in self.asked.values()
        )
        return limit == "none" or all(size <= int(limit) for size in sizes)

    # ---- its script

    def head(self):
        side = "server" if self.side.is_server else "client"
        lines = [f"{side} 0{'' if self.side.webtransport else ' connect'}\n"]
        for number, asked in sorted(self.asked.items()):
            lines.append(f"request {number} {section(*REQUESTS[asked]).hex()}\n")
        if not self.side.is_server and self.first:
            # (a session is asked for once SETTINGS came)
            lines += self.first.lines(self.first.end())
        return "".join(lines)

    def text(self):
        streams, is_first = self.streams, not self.side.is_server and self.first
        self.streams = [stream for stream in streams if stream is not self.first or not is_first]
        text = super().text()
        self.streams = streams
        lines = text.splitlines(keepends=True)
        return "".join(
            f"{line[:-1]} {CANCELLED}\n" if line.startswith("reset ") else line
            for line in lines
        )

    # ---- what it has to give

    def modelled(self, stream, decision):
        """Returns the events of a stream and its purpose, by what became of its session."""
        settings = getattr(self, "settings", None)
        around = Surroundings(settings is not None, self.allows(settings), answers=self.answers)
        around.fields_of = fields_of
        around.states = {session: decision for session in range(0, 64, 4)} | {3600: decision}
        return session_events(
            *(self.side, stream.stream, stream.content, stream.fin, around),
            *(stream.opened, stream.asked),
        )

    def fault(self, ways):
        """Returns what is wrong with the events of the three ways."""
        told = []
        for found in ways:
            whole = WholeConnection(self, found)
            if fault := whole.fault():
                return fault
            told.append(whole)
        if any(one.over is not None for one in told):
            return None
        for stream in self.streams:
            events = [one.without_datagrams(stream.stream, []) for one in told[:2]]
            if not self.left_early(stream, told) and events[0] != events[1]:
                return f"stream {stream.stream}: whole {events[0]}, cut {events[1]}"
        return None

    def left_early(self, stream, told):
        """Returns whether a stream ends with something else than its bytes."""
        return stream.left_by or any(("gone",) in one.told_of(stream.stream) for one in told)


class WholeConnection:
    """What a connection told of a script."""

    def __init__(self, script, found):
        self.script, self.found, self.told, self.outputs = script, found, {}, {}
        self.over = next((event[1] for _, _, event in found if event[0] == "over"), None)
        control = script.first.stream if script.first else None
        for number, stream, event in found:
            if event[0] in OUTPUTS:
                self.outputs.setdefault(stream, set()).add(event)
            elif stream is not None or event[0] in OF_CONNECTION:
                place = control if stream is None else stream
                self.told.setdefault(place, []).append((number, event))

    def told_of(self, stream):
        """Returns the events of a stream that say something of the peer's half."""
        events = [event for _, event in joined_pieces(self.told.get(stream, []))]
        return [event for event in events if event != ("done",)]

    def decision_of(self, stream):
        """Returns what became of the session of a stream."""
        if any(event[0] == "joined" for event in self.told_of(stream)):
            return "open"
        codes = [event[1] for event in self.outputs.get(stream, ())]
        if self.over in DECISIONS:
            codes.append(self.over)
        return next((DECISIONS[code] for code in codes if code in DECISIONS), "coming")

    def fault(self):
        """Returns what is wrong, or None."""
        errors, due = set(), set()
        for stream in self.script.streams:
            wanted, code, error = self.wanted_of(stream)
            errors |= error
            # (what follows a request for a session waits for SETTINGS, or for its answer: a reset
            # that comes before them drops it, as RFC 9000, section 3.2, allows)
            waits = any(event[0] == "asked" for event in wanted)
            due |= set() if waits and stream.left_by else error
            if fault := self.stream_fault(stream, wanted, code):
                return f"stream {stream.stream}: {fault}"
        if self.over not in (errors if due else errors | {None}):
            return f"the connection ends with {self.over}, and not one of {errors}"
        streams = {stream.stream for stream in self.script.streams}
        strange = {*self.told, *self.outputs} - streams
        return f"events of the streams {strange}" if strange else self.order_fault()

    def wanted_of(self, stream):
        """Returns the events that a stream has to give, the code with which it is left early, or
        None, and the errors of the connection that it may cause."""
        events, purpose = self.script.modelled(stream, self.decision_of(stream.stream))
        wanted, code, errors, is_told = [], None, set(), bool(stream.opened)
        if stream.left_by and purpose in CRITICAL:
            errors.add(CLOSED_CRITICAL)
        for event in events:
            name = event[0]
            if name in UNTOLD:
                continue
            is_told |= name in ("request", "asked", "joined")
            if name == "fault" and event[2] == "connection":
                errors.add(event[1])
            elif name in ("fault", "malformed", "large"):
                code = {"malformed": MESSAGE, "large": TOO_LARGE}.get(name) or event[1]
                is_last = is_told and not any(one[0] == "closed" for one in wanted)
                shown = (name, code) if name == "fault" else (name,)
                wanted += [shown] if is_last else []
                break
            elif name != "end" or is_told and not any(one[0] == "closed" for one in wanted):
                wanted.append(as_told(event))
        return wanted, code, errors

    def stream_fault(self, stream, wanted, code):
        """Returns what is wrong with what was told of a stream, or None."""
        told = self.without_datagrams(stream.stream, wanted)
        is_cut = self.over is not None or bool(stream.left_by)
        place = next((n for n, event in enumerate(told) if event[0] in LAST), None)
        if place is not None:
            # (a request may be answered later)
            if any(event[0] not in {*LAST, "answered"} for event in told[place:]):
                return f"told {told[place:]}"
            told, is_cut = told[:place], True
        if told != wanted and not (is_cut and is_start(told, wanted)):
            return f"told {told}, and not {wanted}"
        codes = {event[1] for event in self.outputs.get(stream.stream, ())}
        if stream.left_by:
            # (the program resets its half with the code of the peer's)
            codes = {code for code in codes if code < FIRST_CODE}
        allowed = {code, GONE} if is_cut else {code}
        allowed |= {CANCELLED, INCOMPLETE} if stream.left_by else set()
        # (what the own half of a session that is lost ends with)
        allowed |= {CANCELLED} if is_cut else set()
        # (a stream of which both halves ended is told to the program alone)
        is_due = code is not None and not is_cut and not stream.fin
        if codes - allowed or is_due and not codes:
            return f"QUIC is to end it with {codes}, and not {code}"
        return None

    def without_datagrams(self, stream, wanted):
        """Returns what was told of a stream without QUIC's datagrams of its session: those of
        capsules are wanted in their order."""
        pool = [one[1:] for one in self.script.datagrams if one[0] * 4 == stream]
        due, kept = [event for event in wanted if event[0] == "datagram"], []
        for event in self.told_of(stream):
            if event[0] == "datagram" and due[:1] != [event] and event[1] in pool:
                pool.remove(event[1])
                continue
            due = due[1:] if due[:1] == [event] else due
            kept.append(event)
        return kept

    def order_fault(self):
        """Returns what is wrong with the order of events, or None: nothing comes after the end."""
        places = [place for place, one in enumerate(self.found) if one[2][0] == "over"]
        after = {one[2][0] for one in self.found[places[0] + 1 :]} if places else set()
        after -= {"held", "closes", "answered"}
        return f"{after} after the end" if after else None


def as_told(event):
    """Returns an event as a whole connection tells it."""
    name = event[0]
    if name == "settings":
        return (name, event[2])
    if name == "bytes":
        return ("data", event[1])
    if name in OF_RESPONSE:
        return ("response", *event[1:-1])
    if name == "lost":
        return ("gone",)
    return event if name in ("closed", "answered", "datagram", "draining", "reset") else event[:-1]


def is_start(told, wanted):
    """Returns whether these events are a start of others, of which the last one may be a piece."""
    if told == wanted[: len(told)]:
        return True
    whole = len(told) - 1
    if told[:whole] != wanted[:whole] or len(wanted) <= whole:
        return False
    other = wanted[whole]
    return told[whole][0] == other[0] == "data" and other[1].startswith(told[whole][1])


def batch_of(seed, first, count):
    """Returns the scripts of a seed from this one on that can be played."""
    names = [f"whole {seed} {number}" for number in range(first, first + count)]
    scripts = [(name, WholeScript(name)) for name in names]
    return Batch([one for one in scripts if one[1].can_be_played()], whole_events_in)
