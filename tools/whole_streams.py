"""What a stream of a recording has to give to the program of a whole connection, by what the stacks
say of it, and when."""

from whole_events import CLOSED, NEVER, is_start

MESSAGE_ERROR, EXCESSIVE_LOAD, REQUEST_CANCELLED = 0x10E, 0x107, 0x10C
OF_RESPONSE = {"response", "ready", "rejected"}
UNTOLD = {"opened", "joins", "frame"}
EARLY = {"malformed": MESSAGE_ERROR, "large": EXCESSIVE_LOAD}
# The first error code of applications, in WebTransport (draft-ietf-webtrans-http3-02, section 4.3).
FIRST_CODE = 0x52E4A40FA8DB


class Wanted:
    """What a stream has to give: the events that the program is told, each with the number of the
    command that brings it and whether it cannot come later; the code by which the stream is left
    early, or None; the error by which it ends the connection, or None; and how many of its bytes
    wait."""

    def __init__(self, stream, commands, number, settings):
        """`number` is that of the command with which the stream joins its session, or is opened
        here, and `settings` that of SETTINGS."""
        self.stream, self.commands, self.number = stream, commands, number
        self.settings = settings
        self.events, self.code, self.broken, self.left = [], None, None, 0
        self.is_told = bool(stream.opened)
        # Whether its sections refer to the dynamic table.
        self.may_wait = False
        # When the own half is finished, which the program does for any stream that ended.
        self.finished = 0
        if stream.session is None and not stream.opened and stream.stream % 4 == 0:
            self.finished = commands.answers.get(stream.stream, NEVER)

    def take_all(self, events):
        """Takes the events of the stream."""
        for event in events:
            name = event[0]
            if name == "left":
                self.left = event[1] if self.number != NEVER else 0
            elif name == "fault" and event[2] == "connection":
                self.broken = event[1]
            elif name in EARLY or name in ("fault", "lost", "reset", "closed"):
                if not self.end_early(event):
                    return
            elif name not in UNTOLD:
                self.is_told |= name in ("request", "asked", "joined")
                self.take(event)

    def take(self, event):
        """Takes an event that the program is told."""
        name, stream = event[0], self.stream.stream
        if name == "end":
            if self.is_told and not self.is_over():
                self.add(("end",), self.commands.fins[stream])
                self.add(("done",), self.finished)
        elif name == "answered":
            self.add(event, self.commands.answers[stream])
        elif name == "joined":
            self.add(event[:2], self.number)
        elif name in ("datagram", "draining"):
            self.add(event[:2], 0, is_exact=False)
        else:
            self.take_placed(event)

    def take_placed(self, event):
        """Takes an event that has an offset."""
        name, number = event[0], self.commands.at(self.stream.stream, event[-1])
        waits = name in ("asked", "request") and dict(event[1]).get(b":protocol") == b"webtransport"
        number = max(number, self.number or 0, self.settings if waits else 0)
        if name == "settings":
            event = (name, event[2], event[3])
        elif name == "bytes":
            event = ("data", *event[1:])
        elif name in OF_RESPONSE:
            event = ("response", *event[1:])
        is_section = event[0] not in ("settings", "goaway", "data")
        self.add(event[:-1], number, is_exact=not is_section or not self.may_wait)

    def add(self, event, number, is_exact=True):
        self.events.append((event, number, is_exact))

    def is_over(self):
        """Returns whether the program is told that the stream is over."""
        return any(event[0] in CLOSED for event, _, _ in self.events)

    def end_early(self, event):
        """Takes an event after which the stream is read no further. Returns whether others may
        follow."""
        name, is_over = event[0], self.is_over()
        self.code = EARLY.get(name, event[1] if name == "fault" else self.code)
        if not self.is_told or is_over:
            return False
        if self.stream.ended.startswith("reset") and name in ("reset", "lost"):
            number = self.commands.resets[self.stream.stream]
            wire = int(self.stream.ended.split()[1])
            self.add(("reset", self.shown_code(wire)), number)
            self.add(("gone",) if name == "lost" else ("done",), number)
            self.code = REQUEST_CANCELLED if name == "lost" else wire
        elif name != "lost":
            size = {"fault": 2, "closed": 3}.get(name, 1)
            self.add(event[:size], 0, is_exact=False)
        return name == "closed"

    def shown_code(self, code):
        """Returns a code as the program sees it: that of the application, on a stream of a
        session."""
        if self.stream.session is None:
            return code
        return code - FIRST_CODE - (code - FIRST_CODE) // 0x1F

    # ---- what was told

    def is_known(self, until):
        """Returns whether the program knows of the stream before a command."""
        if self.stream.opened:
            return self.number is not None and self.number < until
        return self.is_told and any(number < until for _, number, _ in self.events[:1])

    def difference(self, told, until=NEVER):
        """Returns how what was told differs from what is wanted up to a command, or None. With that
        command itself anything may come or be missing."""
        number = -1
        for place, (event, least, is_exact) in enumerate(self.events):
            number = max(number, least)
            if place >= len(told):
                if number < until and (is_exact or until == NEVER):
                    return f"{event} is missing, of command {number}: {told[-2:]}"
                return None
            found, shown = told[place]
            is_piece = until != NEVER and place + 1 == len(told) and is_start(shown, event)
            if shown != event and not is_piece:
                return f"{shown} with command {found}, and not {event} with command {number}"
            if shown == event and (found < number or is_exact and found != number):
                return f"{event} with command {found}, and not with {number}"
            number = found
        return f"{told[len(self.events):]} at the end" if len(told) > len(self.events) else None

    def output_fault(self, outputs, code=None, number=None):
        """Returns what is wrong with what QUIC was to do with the stream, or None. `number` is that
        of the command with which the end of its session cut it, which has this code."""
        names = [event[0] for _, event in outputs]
        code = self.code if code is None else code
        is_reset = self.stream.ended.startswith("reset") and not self.is_told
        wrong = [
            event for place, event in outputs
            if event[1] != code and not is_reset or number not in (None, place)
        ]
        if wrong or len({*names}) != len(names):
            return f"QUIC is to do {outputs}, where the code is {code}"
        if code is None or is_reset:
            return None
        left = number if number is not None else outputs[0][0] if outputs else self.number
        is_cut = number is not None
        goes_on = is_cut or left is not None and self.commands.over(self.stream.stream) > left
        if left is not None and ("stops" in names) != goes_on:
            return f"QUIC is to do {outputs}, where command {left} leaves the stream"
        has_half = self.stream.stream % 4 < 2 and (is_cut or not self.is_told)
        if has_half and "resets" not in names:
            return f"QUIC is to do {outputs}, and resets nothing"
        return None
