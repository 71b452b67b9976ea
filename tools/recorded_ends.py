"""Recorded connections with their messages and sessions, as an end of our own takes them: it sends
the requests that the recorded peer answers, and answers those that it sends."""

from message_bytes import CONNECT, GET, OF_SERVER, section
from message_bytes import SESSION as SESSION_REQUEST
from message_rules import is_malformed_request
from played_ends import PlayedEnds
from recorded_connections import REQUEST, SESSION, Connection
from recorded_sessions import RecordedSessions, sections_in


class RecordedEnds(RecordedSessions):
    """A recorded connection in one direction, which comes to an end of our own. That allows a
    dynamic table of this capacity."""

    def __init__(self, connection, table=0):
        super().__init__(connection)
        self.table = table
        self.streams = [stream for stream in self.streams if self.can_be_asked(stream)]
        # (A stream of ours in a session whose own stream is not in the recording is never opened.)
        there = {stream.stream for stream in self.streams}
        self.streams = [s for s in self.streams if s.opened != SESSION or s.session in there]
        self.own = {s.stream: s.session for s in self.streams if s.opened == SESSION}
        self.added = None
        if not self.side.is_server and not self.settings and "session" in self.asked.values():
            # A session is asked for after SETTINGS, which this recording does not have.
            self.added = next(number for number in range(3, 1000, 4) if number not in there)

    def can_be_asked(self, stream):
        """Returns whether an end of our own sends the request of a stream: not one for a session if
        the SETTINGS of the server do not allow it."""
        is_session = self.asked.get(stream.stream) == "session"
        return not is_session or not self.settings or self.allows()

    def script(self, rng, size):
        """Returns the script of a random order, in pieces of this size; of random sizes if it is
        0."""
        first, *lines = super().script(rng, size).splitlines(keepends=True)
        count = sum(line.startswith(("request ", "session ")) for line in lines)
        head, lines = sorted(lines[:count], key=place_of), lines[count:]
        head.insert(0, f"{first.split()[0]} {self.table}\n")
        if self.added is not None:
            head.append(f"bytes {self.added} {OF_SERVER}\n")
        elif not self.side.is_server and "session" in self.asked.values():
            head += taken_settings(lines, self.streams)
        codes = {f"reset {s.stream}\n": f"{s.ended.split()[-1]}\n" for s in self.streams}
        lines = [f"{one[:-1]} {codes[one]}" if one in codes else one for one in lines]
        return "".join([*head, *lines])

    def first_line(self, stream):
        """Returns the line that comes before the bytes of a stream."""
        if stream.opened != REQUEST:
            return super().first_line(stream)
        sections = sections_in(stream.other)
        fields = sections[0] if sections else GET
        if is_malformed_request(fields, True):
            # (as hand-made ones are, which an end of our own does not send)
            fields = {"session": SESSION_REQUEST, "connect": CONNECT}.get(
                self.asked[stream.stream], [(GET[0][0], dict(fields)[b":method"]), *GET[1:]]
            )
        return f"request {stream.stream} {section(*fields).hex()}\n"

    def without_errors(self):
        """Returns the same without the streams that end it, or None if there are none."""
        part = super().without_errors()
        if part is None:
            return None
        other = Connection(self.name)
        other.streams, other.datagrams = part.streams, part.datagrams
        return RecordedEnds(other, self.table)

    def fault(self, script, lines):
        """Returns what is wrong with the lines of an end to which a script was played."""
        return PlayedEnds(self, script, lines).fault()


def place_of(line):
    """Returns the place of a line among those of streams that are opened here: requests come first,
    in the order of their IDs, which the connection chooses."""
    name, number, *_ = line.split()
    return name != "request", int(number)


def taken_settings(lines, streams):
    """Takes the lines of SETTINGS out of those of a script, and returns them: the peer sends
    nothing of a session before it is asked for, and it is asked for after SETTINGS."""
    place = ((s.stream, e[2]) for s in streams for e in s.events if e[0] == "settings")
    stream, left = next(place, (None, 0))
    taken, starts = [], (f"bytes {stream} ", f"end {stream} ")
    while left > 0:
        line = next(line for line in lines if line.startswith(starts))
        lines.remove(line)
        taken.append(line)
        left -= len(line.split()[2]) // 2
    return taken
