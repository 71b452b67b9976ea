"""What becomes of the sessions of a connection and of their streams, by what the connection told of
the sessions' own streams and by what came when (draft-ietf-webtrans-http3-02, sections 4 and 5)."""

from session_events import MAX_WAITING
from whole_events import CLOSED, NEVER, OUTPUTS


class Session:
    """A session: what is known of it at last, and with which commands that came to be known, it
    opened, and it was over."""

    def __init__(self, may_come, can_open, events):
        self.state, self.known, self.opened, self.over = "coming", NEVER, NEVER, NEVER
        if not may_come:
            self.settle(-1, "impossible")
        for number, event in events:
            self.take(number, event, can_open)

    def take(self, number, event, can_open):
        name = event[0]
        if name == "request":
            self.settle(number, "other")
        elif name in ("answered", "response") and can_open:
            self.settle(number, "open" if event[1] < 300 else "refused")
        elif name in CLOSED or name in OUTPUTS or name == "reset":
            self.over = min(self.over, number)
            self.settle(number, "refused")

    def settle(self, number, state):
        if self.known == NEVER:
            self.known, self.state = number, state
            self.opened = number if state == "open" else NEVER

    def decision(self, number):
        """Returns what becomes of a stream that names the session with this command, and when."""
        when = max(number, self.known)
        if self.state == "open" and when >= self.over and when > self.opened:
            return "over", when
        return self.state, when


class Sessions:
    """The sessions of a connection, and what became of the streams that the peer opened for
    them."""

    def __init__(self, ends, commands, told, outputs):
        self.ends, self.told, self.outputs, self.sessions = ends, told, outputs, {}
        # The session that each stream names, with which command, and the offset after that.
        self.joins, self.heads = {}, {}
        for stream in ends.streams:
            for event in ends.wanted_of(stream, "coming"):
                if event[0] == "joins":
                    number = commands.at(stream.stream, event[2])
                    self.joins[stream.stream] = event[1], number
                    self.heads[stream.stream] = event[2]
        self.decisions = {}
        for stream, (session, number) in self.joins.items():
            if stream == session:
                self.decisions[stream] = "impossible", number
            else:
                self.decisions[stream] = self.of(session).decision(number)
        for stream in sorted(self.joins, key=lambda one: self.joins[one][1]):
            if self.is_full(stream):
                self.decisions[stream] = "refused", self.joins[stream][1]

    def of(self, session):
        """Returns the session of an ID."""
        if session not in self.sessions:
            asked, is_server = self.ends.asked.get(session), self.ends.side.is_server
            events = [*self.told.get(session, []), *self.outputs.get(session, [])]
            events.sort(key=lambda one: one[0])
            may_come = is_server or asked == "session"
            self.sessions[session] = Session(may_come, asked == "session" or is_server, events)
        return self.sessions[session]

    def is_full(self, stream):
        """Returns whether as many streams wait as may where this one has to."""
        number, waiting = self.joins[stream][1], 0
        if self.decisions[stream][1] <= number:
            return False
        for other, (_, since) in self.joins.items():
            waiting += since < number < self.decisions[other][1]
        return waiting >= MAX_WAITING

    def datagrams_due(self, datagrams, numbers):
        """Returns the number of the command with which each datagram is told, or None, its session
        and its payload. They come with these commands."""
        due, waiting = [], []
        for number, (about, content) in zip(numbers, datagrams, strict=True):
            session = self.of(4 * about["quarter stream id"])
            waiting = [until for until in waiting if until > number]
            if number > session.known:
                when = number if session.opened < number < session.over else None
            else:
                when = session.opened if len(waiting) < MAX_WAITING else None
                waiting.append(session.known)
            payload = content[len(content) - about["bytes"] :]
            due.append((when if when != NEVER else None, 4 * about["quarter stream id"], payload))
        return due
