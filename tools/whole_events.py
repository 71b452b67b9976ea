"""What a whole connection tells and does, as wt_recorded prints it, and what a script brings to it.

A line is the number of a command, from 0, the stream or '-', and an event, which came with that
command. `resets` and `stops` are what QUIC is to do, and `held` is how many bytes wait at last.
"""

from bisect import bisect_left, bisect_right

from session_events import bytes_in, fields_in

# How a stream is told to be over.
CLOSED = {"done", "closed", "gone", "malformed", "large", "fault", "unprocessed", "broken"}
# What QUIC is to do with a stream.
OUTPUTS = {"resets", "stops"}
# The stream of a request that no recording has.
OTHER = 1 << 62
NEVER = float("inf")
FIELDS = {"request", "asked", "trailers"}
WITH_STATUS = {"interim", "response"}
BYTES = {"data", "datagram", "decoder"}


def event_in(name, words):
    """Returns the event of a line."""
    if name in FIELDS:
        return (name, fields_in(words))
    if name in WITH_STATUS:
        return (name, int(words[0]), fields_in(words[1:]))
    if name in BYTES:
        return (name, bytes_in(words[0]))
    if name == "closed":
        return (name, int(words[0]), bytes_in(words[1]))
    if name == "settings":
        return (name, tuple(words))
    if name == "malformed":
        return (name,)
    return (name, *map(int, words))


def whole_events_in(lines):
    """Returns the number, the stream and the event of each line. A line without a stream has
    None."""
    found = []
    for line in lines:
        number, stream, name, *words = line.split(" ")
        stream = None if stream == "-" else int(stream)
        found.append((int(number), stream, event_in(name, words)))
    return found


def joined_pieces(events):
    """Returns numbers and events, of which pieces of content that follow one another are one, with
    the last number."""
    found, pieces = [], []
    for place, (number, event) in enumerate(events):
        if event[0] != "data":
            found.append((number, event))
            continue
        pieces.append(event[1])
        if place + 1 == len(events) or events[place + 1][1][0] != "data":
            found.append((number, ("data", b"".join(pieces))))
            pieces = []
    return found


def is_start(shown, event):
    """Returns whether this may be the first piece of an event."""
    return shown[0] == event[0] == "data" and event[1].startswith(shown[1])


def decoder_bytes(found):
    """Returns the numbers and pieces of what was sent on the decoder stream after its type (RFC
    9204, section 4.2), or None if that is not there."""
    told = [(number, event[1]) for number, _, event in found if event[0] == "decoder"]
    if not told:
        return []
    number, first = told[0]
    return [(number, first[1:]), *told[1:]] if first.startswith(b"\3") else None


class Commands:
    """What a script brings, by the numbers of its commands."""

    def __init__(self, script):
        self.pieces, self.fins, self.resets, self.answers, self.datagrams = {}, {}, {}, {}, []
        # The streams whose bytes come, by the numbers of the commands.
        self.streams = {}
        for number, line in enumerate(script.splitlines()[1:]):
            name, stream, *words = line.split(" ")
            if name == "datagram":
                self.datagrams.append(number)
            elif name == "answer":
                self.answers[int(stream)] = number
            elif name == "reset":
                self.resets[int(stream)] = number
            elif name in ("bytes", "end"):
                self.streams[number] = int(stream)
                self.add(number, int(stream), len(words[0]) // 2 if words else 0)
                if name == "end":
                    self.fins[int(stream)] = number

    def add(self, number, stream, size):
        offsets, numbers = self.pieces.setdefault(stream, ([], []))
        offsets.append((offsets[-1] if offsets else 0) + size)
        numbers.append(number)

    def at(self, stream, offset):
        """Returns the number of the command that brings the byte before an offset, or None."""
        offsets, numbers = self.pieces.get(stream, ([], []))
        place = bisect_left(offsets, offset)
        return numbers[place] if place < len(numbers) else None

    def came(self, stream, number):
        """Returns how many bytes of a stream came up to a command."""
        offsets, numbers = self.pieces.get(stream, ([], []))
        count = bisect_right(numbers, number)
        return offsets[count - 1] if count else 0

    def over(self, stream):
        """Returns the number of the command with which the peer's half ends, or infinity."""
        return min(self.fins.get(stream, NEVER), self.resets.get(stream, NEVER))
