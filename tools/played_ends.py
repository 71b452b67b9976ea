"""What is wrong with what a whole connection told of a recorded connection that was played to it,
by what the stacks say of its streams.

The connection tells no frames, no purposes of streams and no offsets: each event has to come with
the command that brings its last byte, or that ends what its stream waits for. A stream that the
program does not know of is left without an event, by what QUIC is to do with it.
"""

from collections import Counter
from itertools import islice

import section_bytes
from decoder_stream import ACKNOWLEDGMENT, instructions_in
from session_events import GONE
from whole_events import CLOSED, NEVER, OTHER, OUTPUTS, Commands, decoder_bytes, joined_pieces
from whole_events import whole_events_in
from whole_sessions import Sessions
from whole_streams import OF_RESPONSE, Wanted


# The events that have field sections.
SECTIONS = {"request", "asked", "interim", "trailers"} | OF_RESPONSE
# What no recording gives rise to.
STRANGE = {"credit", "unexpected", "unprocessed"}


class PlayedEnds:
    """A recorded connection that was played by a script, and the lines that came of it."""

    def __init__(self, ends, script, lines):
        self.ends, self.commands, self.found = ends, Commands(script), whole_events_in(lines)
        self.told, self.outputs = {}, {}
        control = self.control()
        for number, stream, event in self.found:
            if event[0] in OUTPUTS:
                self.outputs.setdefault(stream, []).append((number, event))
            elif stream is not None or event[0] in ("settings", "goaway"):
                place = control if stream is None else stream
                self.told.setdefault(place, []).append((number, event))
        self.over = next((number for number, _, e in self.found if e[0] == "over"), NEVER)
        self.settings = next((number for number, _, e in self.found if e[0] == "settings"), NEVER)
        self.told.pop(ends.added, None)
        self.sessions = Sessions(ends, self.commands, self.told, self.outputs)
        self.wanted = {stream.stream: self.wanted_of(stream) for stream in ends.streams}

    def control(self):
        """Returns the control stream of the peer."""
        for stream in self.ends.streams:
            events = self.ends.wanted_of(stream, "coming")
            if any(event[:2] == ("opened", "control") for event in events):
                return stream.stream
        return self.ends.added

    def wanted_of(self, stream):
        """Returns what a stream has to give, by what became of its session."""
        decision, number = self.sessions.decisions.get(stream.stream, ("coming", None))
        if stream.session is not None and stream.opened:
            decision, number = "open", self.sessions.of(stream.session).opened
        elif stream.opened:
            is_first = not any("session" == asks for asks in self.ends.asked.values())
            number = 0 if is_first else self.settings
        wanted = Wanted(stream, self.commands, number, self.settings)
        events = self.ends.wanted_of(stream, decision)
        wanted.may_wait = bool(self.ends.table and references_in(stream, events))
        wanted.take_all(events)
        return wanted

    def fault(self):
        """Returns what is wrong, or None."""
        numbers = [number for number, _, _ in self.found]
        strange = [one for one in self.found if one[2][0] in STRANGE or numbers != sorted(numbers)]
        if strange or any(event[0] not in CLOSED for _, event in self.told.pop(OTHER, [])):
            return f"what cannot be: {strange}"
        if fault := self.end_fault() or self.datagram_fault():
            return fault
        for stream in self.ends.streams:
            if fault := self.stream_fault(stream):
                return f"stream {stream.stream}: {fault}"
        if unknown := {*self.told, *self.outputs} - {*self.wanted}:
            return f"events of the streams {unknown}"
        return self.decoder_fault() or self.held_fault()

    # ---- streams

    def stream_fault(self, stream):
        wanted, number = self.wanted[stream.stream], stream.stream
        told = joined_pieces(self.told.get(number, []))
        outputs, last = self.outputs.get(number, []), told[-1] if told else None
        until, closed = self.over, ("broken",)
        if (over := self.cut(stream, wanted)) < until:
            until, closed = over, ("gone",)
        if until == NEVER:
            return wanted.difference(told) or wanted.output_fault(outputs)
        if until == self.over:
            ends = [event for _, event in told if event[0] in CLOSED]
            if wanted.is_known(until) and len(ends) != 1:
                return f"it is not told to be over once: {told}"
        elif not told or last != (until, closed):
            return f"its session ends with command {until}, and not {told}"
        if last and last == (until, closed):
            told.pop()
        if closed == ("broken",):
            return wanted.difference(told, until)
        fault = wanted.difference(told, until) or self.cut_fault(stream, told, until)
        return fault or wanted.output_fault(outputs, GONE, until)

    def cut(self, stream, wanted):
        """Returns the number of the command with which the end of its session ends a stream, or
        infinity: one whose end came is told to its end."""
        if stream.session is None or wanted.number is None:
            return NEVER
        session, is_own = self.sessions.of(stream.session), bool(stream.opened)
        if not is_own and self.sessions.decisions[stream.stream][0] != "open":
            return NEVER
        if self.commands.over(stream.stream) > session.over:
            return session.over
        # (the bytes of a stream that is opened here come after the call that opens it)
        told = self.told.get(stream.stream, []) if is_own and session.opened == session.over else []
        return session.over if told[-1:] == [(session.over, ("gone",))] else NEVER

    def cut_fault(self, stream, told, until):
        """Returns what is missing of a stream that the peer opened for a session: all that came
        before its end is told."""
        if stream.opened:
            return None
        came = self.commands.came(stream.stream, until) - self.sessions.heads[stream.stream]
        size = sum(len(event[1]) for _, event in told if event[0] == "data")
        is_joined = any(event[0] == "joined" for _, event in told)
        return None if is_joined and size == came else f"{size} bytes of {came} are told: {told}"

    # ---- the connection

    def end_fault(self):
        """Returns what is wrong with the end of the connection, or None."""
        broken = {number: one.broken for number, one in self.wanted.items() if one.broken}
        overs = [event for _, _, event in self.found if event[0] == "over"]
        if not broken or not overs:
            return f"it ends by {overs}, and not {broken}" if broken or overs else None
        _, code, by_peer = overs[0]
        stream = self.commands.streams.get(self.over)
        if len(overs) > 1 or by_peer or broken.get(stream) != code:
            return f"it ends by {overs}, with bytes of stream {stream}, and not by {broken}"
        closes = [(number, event[1]) for number, _, event in self.found if event[0] == "closes"]
        if closes != [(self.over, code)]:
            return f"QUIC is to close the connection with {closes}, and not {code}"
        place = next(place for place, one in enumerate(self.found) if one[2][0] == "over")
        after = {event[0] for _, _, event in self.found[place + 1 :]} - {"held", "closes"}
        return f"{after} after the end" if after else None

    def datagram_fault(self):
        """Returns what is wrong with the datagrams, and takes those that have to come out of what
        was told."""
        due = self.sessions.datagrams_due(self.ends.datagrams, self.commands.datagrams)
        for number, session, payload in due:
            if number is None or number > self.over:
                continue
            told, one = self.told.get(session, []), (number, ("datagram", payload))
            if one in told:
                told.remove(one)
            elif number < self.over:
                return f"no datagram of session {session} with command {number}: {payload}"
        return None

    def decoder_fault(self):
        """Returns what is wrong with the acknowledgments (RFC 9204, section 4.4.1), or None: each
        section that was read has one if it refers to the dynamic table."""
        pieces = decoder_bytes(self.found)
        if pieces is None or bool(pieces) != bool(self.ends.table):
            return f"the decoder stream is {pieces}, with a table of {self.ends.table} bytes"
        told = Counter(
            value for name, value in instructions_in(b"".join(piece for _, piece in pieces))
            if name == ACKNOWLEDGMENT
        )
        for stream in self.ends.streams:
            events = [event for _, event in self.told.get(stream.stream, [])]
            due = references_in(stream, events)
            is_known = ("malformed",) not in events and self.over == NEVER
            if told[stream.stream] > due or is_known and told[stream.stream] != due:
                return f"stream {stream.stream}: {told[stream.stream]} acknowledgments of {due}"
        return None

    def held_fault(self):
        """Returns what is wrong with how many bytes wait at last: those of streams that go on."""
        if self.over != NEVER:
            return None
        held = self.found[-1][2]
        streams = (s for s in self.ends.streams if self.cut(s, self.wanted[s.stream]) == NEVER)
        due = sum(self.wanted[stream.stream].left for stream in streams)
        return None if held == ("held", due) else f"{held}, where {due} bytes are left over"


def references_in(stream, events):
    """Returns how many of the sections of a stream that have these events refer to the dynamic
    table (RFC 9204, section 4.5.1)."""
    count = sum(event[0] in SECTIONS for event in events)
    sections = islice(section_bytes.sections_in(stream.content), count)
    return sum(section[0] != 0 for section in sections)
