"""Random connections with QPACK's dynamic table (RFC 9204): a client that inserts, evicts and
refers to entries as its encoder may, sends requests whose sections wait for insertions, and resets
some; and what a server has to find in them, and to tell the encoder.

The encoder follows the RFC, chooses at random, and shares no code with the program.
"""

from dataclasses import dataclass, field

from connection_rows import frame
from decoder_stream import ACKNOWLEDGMENT, CANCELLATION, instructions_in
from message_bytes import GET, OF_CLIENT, data, line, prefixed
from random_sessions import EXTRA, STATIC
from whole_events import CLOSED, OUTPUTS, is_start, joined_pieces, whole_events_in

CONTROL, ENCODER = 2, 6
LIMITS = (0, 40, 100, 150, 220, 300, 500, 4096)
UNDECODABLE, WRONG_INSTRUCTION, REQUEST_CANCELLED = 0x200, 0x201, 0x10C
# The events of the sections of requests.
SECTIONS = ("request", "trailers")
FIELDS = (
    (b"x", b"y"), (b"cookie", b"a=b"), (b"x-long", b"z" * 60), (b":path", b"/a"), (b"age", b"0"),
    (b":authority", b"b"), (b"x", b""), (b"accept", b"*/*"),
)


def string(value):
    return prefixed(0, 7, len(value)) + value


def size_of(entry):
    """Returns the size of an entry (RFC 9204, section 3.2.1)."""
    return len(entry[0]) + len(entry[1]) + 32


@dataclass
class Section:
    """A field section: its bytes, its fields, its Required Insert Count and the first entry that it
    refers to."""

    encoded: bytes
    fields: list
    required: int
    first: int


class Encoder:
    """An encoder with a table of at most `limit` bytes."""

    def __init__(self, rng, limit):
        self.rng, self.limit = rng, limit
        self.capacity, self.entries, self.dropped = 0, [], 0

    @property
    def inserts(self):
        return self.dropped + len(self.entries)

    # ---- the encoder stream (section 4.3)

    def instruction(self, kept):
        """Returns a random instruction, which evicts no entry from the number `kept` on; b"" if the
        one that was chosen may not be sent."""
        choice = self.rng.randrange(8)
        if choice == 0 or self.capacity == 0:
            capacity = self.rng.choice((self.limit, self.limit, self.rng.randint(0, self.limit)))
            return self.with_capacity(capacity, kept)
        if choice == 1 and self.entries:
            index = self.rng.randrange(len(self.entries))
            return self.inserted(self.entries[-1 - index], prefixed(0x00, 5, index), kept)
        name, value = self.rng.choice(FIELDS)
        return self.inserted((name, value), self.name(name) + string(value), kept)

    def name(self, name):
        """Returns the name of an insertion, as a reference or literally."""
        ways = [prefixed(0x40, 5, len(name)) + name]
        ways += [prefixed(0xC0, 6, STATIC[field]) for field in STATIC if field[0] == name]
        latest = enumerate(reversed(self.entries))
        ways += [prefixed(0x80, 6, index) for index, entry in latest if entry[0] == name]
        return self.rng.choice(ways)

    def with_capacity(self, capacity, kept):
        if not self.evict(capacity, kept):
            return b""
        self.capacity = capacity
        return prefixed(0x20, 5, capacity)

    def inserted(self, entry, instruction, kept):
        size = size_of(entry)
        if size > self.capacity or not self.evict(self.capacity - size, kept):
            return b""
        self.entries.append(entry)
        return instruction

    def evict(self, room, kept):
        """Evicts entries until the others take at most these bytes. Returns whether it may: none
        that is kept has to go."""
        sizes, count = [size_of(entry) for entry in self.entries], 0
        while sum(sizes[count:]) > room:
            count += 1
        if self.dropped + count > kept:
            return False
        del self.entries[:count]
        self.dropped += count
        return True

    # ---- field sections (section 4.5)

    def section(self, fields):
        base, used = self.rng.randint(0, self.inserts + 1), []
        lines = b"".join(self.line(one, base, used) for one in fields)
        required = max(used, default=-1) + 1
        encoded = self.prefix(required, base) + lines
        return Section(encoded, fields, required, min(used, default=self.inserts))

    def prefix(self, required, base):
        if required == 0:
            return prefixed(0, 8, 0) + prefixed(0, 7, base)
        most = self.limit // 32
        first = prefixed(0, 8, required % (2 * most) + 1)
        if base >= required:
            return first + prefixed(0, 7, base - required)
        return first + prefixed(0x80, 7, required - base - 1)

    def line(self, one, base, used):
        """Returns the line of a field in one of its forms, and notes the entry that it uses."""
        name, value = one
        never = self.rng.choice((0, 1))
        ways = [(None, line(name, value))]
        ways += [(None, prefixed(0xC0, 6, index)) for key, index in STATIC.items() if key == one]
        by_name = [index for key, index in STATIC.items() if key[0] == name]
        ways += [
            (None, prefixed(0x50 | never << 5, 4, index) + string(value)) for index in by_name
        ]
        for number, entry in enumerate(self.entries, self.dropped):
            if entry == one:
                ways += [(number, indexed(number, base))] * 4
            if entry[0] == name:
                ways.append((number, named(number, base, never) + string(value)))
        number, encoded = self.rng.choice(ways)
        if number is not None:
            used.append(number)
        return encoded


def indexed(number, base):
    """Returns an indexed line (sections 4.5.2 and 4.5.3)."""
    if number < base:
        return prefixed(0x80, 6, base - 1 - number)
    return prefixed(0x10, 4, number - base)


def named(number, base, never):
    """Returns the start of a literal line with a name reference (sections 4.5.4 and 4.5.5)."""
    if number < base:
        return prefixed(0x40 | never << 5, 4, base - 1 - number)
    return prefixed(never << 3, 3, number - base)


@dataclass
class Stream:
    """The stream of a request: its bytes, how many were delivered, its sections with the offsets of
    their ends, the numbers of the commands with which a server can read them and with which it
    ends, and whether it is reset."""

    content: bytes
    sections: list
    events: list
    delivered: int = 0
    numbers: list = field(default_factory=list)
    ended: int = None
    is_reset: bool = False

    @property
    def read(self):
        """How many sections a server can have read."""
        return len(self.numbers)

    def wanted_of_reset(self, shown):
        """Returns the events of a stream that is reset, of which these were found: those of its
        sections with the content between them, of which there may be a piece after the first."""
        if not self.read:
            return []
        events = self.events[: 2 * self.read - 1]
        if self.read == 1 and len(shown) > 1 and is_start(shown[1], ("data", b"content")):
            events = [*events, shown[1]]
        return [*events, ("reset", REQUEST_CANCELLED)]

    def is_open(self):
        return not self.is_reset and self.delivered <= len(self.content)


@dataclass
class RandomTables:
    """A random connection: its script, and what has to be found."""

    rng: object
    lines: list = field(default_factory=list)
    streams: dict = field(default_factory=dict)
    instructions: bytes = b"\2"
    delivered: int = 0
    # The insertions before each offset of the encoder stream at which an instruction ends.
    counts: list = field(default_factory=lambda: [(0, 0)])
    fault: tuple = None

    def __post_init__(self):
        self.encoder = Encoder(self.rng, self.rng.choice(LIMITS))
        self.lines += [f"server {self.encoder.limit}\n", f"bytes {CONTROL} {OF_CLIENT}\n"]
        steps = [self.insert] * 5 + [self.ask] * 4 + [self.deliver] * 12 + [self.reset]
        for _ in range(self.rng.randint(5, 400)):
            self.rng.choice(steps)()
        while self.deliver():
            pass
        if self.rng.random() < 0.3:
            self.go_wrong()

    @property
    def script(self):
        return "".join(self.lines)

    @property
    def inserted(self):
        """The insertions that were delivered."""
        return max(count for end, count in self.counts if end <= self.delivered)

    # ---- what a client does

    def insert(self):
        """Adds an instruction, which evicts nothing that the server still needs (section 2.1.1)."""
        unread = [
            section.first for s in self.streams.values() if not s.is_reset
            for section, _ in s.sections[s.read :]
        ]
        kept = min([*unread, self.inserted])
        self.instructions += self.encoder.instruction(kept)
        self.counts.append((len(self.instructions), self.encoder.inserts))

    def ask(self):
        """Adds a request, some with content and trailers."""
        extra = [f for f in (*FIELDS, *EXTRA) if not f[0].startswith(b":")]
        fields = [one for one in FIELDS if one[0] == b":path" and self.rng.random() < 0.5]
        head = [*GET[:3], *(fields or GET[3:])]
        more = [self.rng.choice(extra) for _ in range(self.rng.randint(0, 6))]
        first = self.encoder.section([*head, *more])
        content = frame(1, first.encoded)
        sections, events = [(first, len(content))], [("request", first.fields)]
        if self.rng.random() < 0.3:
            content += data(b"content")
            events.append(("data", b"content"))
            extra = [one for one in extra if one[0] != b"te"]
            last = self.encoder.section([self.rng.choice(extra) for _ in range(3)])
            content += frame(1, last.encoded)
            sections.append((last, len(content)))
            events.append(("trailers", last.fields))
        events.append(("end",))
        self.streams[4 * len(self.streams)] = Stream(content, sections, events)

    def deliver(self):
        """Delivers a piece of a stream. Returns whether there was one."""
        ids = [number for number, stream in self.streams.items() if stream.is_open()]
        if self.delivered < len(self.instructions):
            ids += [ENCODER] * max(1, len(ids) // 2)
        if not ids:
            return False
        chosen, size = self.rng.choice(ids), self.rng.choice((1, 2, 5, 17, 100, 500))
        if chosen == ENCODER:
            piece = self.instructions[self.delivered : self.delivered + size]
            self.delivered += len(piece)
            self.lines.append(f"bytes {ENCODER} {piece.hex()}\n")
        else:
            self.deliver_of(chosen, self.streams[chosen], size)
        for stream in self.streams.values():
            self.note_read(stream)
        return True

    def deliver_of(self, number, stream, size):
        piece = stream.content[stream.delivered : stream.delivered + size]
        stream.delivered += len(piece)
        is_last = stream.delivered == len(stream.content)
        # (the end comes alone at times)
        if is_last and (not piece or self.rng.random() < 0.5):
            stream.delivered += 1
            self.lines.append(f"end {number} {piece.hex()}".strip() + "\n")
            stream.ended = len(self.lines) - 2
        else:
            self.lines.append(f"bytes {number} {piece.hex()}\n")

    def note_read(self, stream):
        while not stream.is_reset and stream.read < len(stream.sections):
            section, end = stream.sections[stream.read]
            if end > stream.delivered or section.required > self.inserted:
                return
            stream.numbers.append(len(self.lines) - 2)

    def reset(self):
        """Resets a stream of which something came, and not its end."""
        begun = [(n, s) for n, s in self.streams.items() if s.is_open() and s.delivered]
        if begun:
            number, stream = self.rng.choice(begun)
            stream.is_reset = True
            self.lines.append(f"reset {number} {REQUEST_CANCELLED}\n")

    # ---- errors

    def go_wrong(self):
        """Adds an error, which is the last thing that comes."""
        if self.rng.random() < 0.5:
            self.lines.append(f"bytes {ENCODER} {self.wrong_instruction().hex()}\n")
            self.fault = (ENCODER, WRONG_INSTRUCTION)
        else:
            number, content = 4 * len(self.streams), frame(1, self.wrong_section())
            self.lines.append(f"bytes {number} {content.hex()}\n")
            self.fault = (number, UNDECODABLE)

    def wrong_instruction(self):
        encoder = self.encoder
        return self.rng.choice((
            prefixed(0x20, 5, encoder.limit + 1),
            prefixed(0x00, 5, len(encoder.entries)),
            prefixed(0x80, 6, len(encoder.entries)) + string(b"x"),
            prefixed(0xC0, 6, 99) + string(b"x"),
            prefixed(0x41, 5, 0) + b"a" + string(b"x" * encoder.capacity),
        ))

    def wrong_section(self):
        """Returns a section that refers to what is not there, or whose prefix is wrong."""
        encoder, most = self.encoder, self.encoder.limit // 32
        ways = [
            prefixed(0, 8, 2 * most + 1) + b"\0\xd1",
            b"\0\x80\xd1",
            b"\0\0" + prefixed(0xC0, 6, 99),
            b"\0\0" + prefixed(0x80, 6, 0),
            b"\0\0" + prefixed(0x10, 4, 0),
            b"\0\0\x21a\x05x",
        ]
        last = encoder.inserts - 1
        if len(encoder.entries) > 1:
            ways.append(encoder.prefix(last, last + 1) + indexed(last, last + 1))
            ways.append(encoder.prefix(last, 0) + indexed(last, 0))
        if encoder.dropped and len(encoder.entries) < most:
            gone = encoder.dropped - 1
            ways.append(encoder.prefix(gone + 1, 0) + indexed(gone, 0))
        return self.rng.choice(ways)

    # ---- what has to be found

    def difference(self, lines):
        """Returns what is wrong with the lines of the program, or None."""
        told, found = Told(self), whole_events_in(lines)
        events, instructions = {number: [] for number in self.streams}, b""
        for number, stream, event in found:
            if event[0] == "decoder":
                instructions += event[1]
                for instruction in instructions_in(event[1] if len(instructions) > 1 else b""):
                    if fault := told.take(*instruction):
                        return fault
            elif stream in events and event[0] not in OUTPUTS:
                events[stream].append((number, event))
                if event[0] in SECTIONS and not told.note_read(stream):
                    return f"stream {stream}: {event}, of no section"
        if instructions[:1] != (b"\3" if self.encoder.limit else b""):
            return "the decoder stream does not begin with its type"
        for number, stream in self.streams.items():
            if fault := self.stream_fault(stream, joined_pieces(events[number])):
                return f"stream {number}: {fault}"
        return self.end_fault(found) or told.end_fault()

    def stream_fault(self, stream, told):
        """Returns what is wrong with what was told of a stream, or None."""
        shown = [event for _, event in told if event[0] not in CLOSED]
        numbers = [number for number, event in told if event[0] in (*SECTIONS, "end")]
        wanted, is_over, due = stream.events, bool(self.fault), [*stream.numbers]
        if stream.is_reset:
            wanted, is_over = stream.wanted_of_reset(shown), bool(stream.read)
        else:
            due.append(max(stream.ended, due[-1]))
        if shown != wanted or numbers != due:
            return f"{told}, and not {wanted} with the commands {due}"
        if len(told) - len(shown) != is_over or is_over and told[-1][1][0] not in CLOSED:
            return f"it is not told to be over at last: {told}"
        return None

    def end_fault(self, found):
        """Returns what is wrong with the end of the connection, or None."""
        wanted = [(len(self.lines) - 2, self.fault[1])] if self.fault else []
        for name in ("over", "closes"):
            ends = [(number, event[1]) for number, _, event in found if event[0] == name]
            if ends != wanted:
                return f"it ends by {ends}, and not {wanted}"
        if not self.fault and found[-1:] and found[-1][2] != ("held", 0):
            return f"bytes wait at last: {found[-1]}"
        return None


class Told:
    """What the server tells the encoder (section 4.4), as an encoder takes it."""

    def __init__(self, connection):
        self.connection, self.received = connection, 0
        self.taken = {number: 0 for number in connection.streams}
        self.due = {number: [] for number in connection.streams}
        self.cancelled = []

    def note_read(self, number):
        """Notes that the next section of a stream was read. Returns whether there is one."""
        sections = self.connection.streams[number].sections[self.taken[number] :]
        self.taken[number] += 1
        if sections and sections[0][0].required:
            self.due[number].append(sections[0][0].required)
        return bool(sections)

    def take(self, name, value):
        """Takes an instruction. Returns what is wrong with it, or None."""
        if name == CANCELLATION:
            self.cancelled.append(value)
        elif name == ACKNOWLEDGMENT:
            if not self.due.get(value):
                return f"an acknowledgment of no section of stream {value}"
            self.received = max(self.received, self.due[value].pop(0))
        else:
            self.received += value
            if value == 0 or self.received > self.connection.inserted:
                return f"an increment by {value}"
        return None

    def end_fault(self):
        """Returns what was not told, or None."""
        connection = self.connection
        if due := {number: some for number, some in self.due.items() if some}:
            return f"no acknowledgment of {due}"
        if self.received != connection.inserted:
            return f"{self.received} insertions, of {connection.inserted}, are acknowledged"
        gone = [number for number, s in connection.streams.items() if s.is_reset]
        if connection.encoder.limit and sorted(self.cancelled) != gone:
            return f"cancellations of {self.cancelled}, and not of {gone}"
        return None
