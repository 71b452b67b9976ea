"""Recorded connections as scripts: what each stream of a recording has to give, by its index alone,
and the streams in random orders, cut into pieces.

A folder of recordings is described in tools/recordings.d/README.md.
"""

import json
from dataclasses import dataclass, field

from connection_model import decoder_fault, values_of
from replay import ends_connection

# The frames that are given whole, by the name of the index.
WHOLE = {"HEADERS", "GOAWAY", "MAX_PUSH_ID"}
# What is no frame.
OTHERS = {"capsules", "left", "stream", "WEBTRANSPORT", "application bytes"}
ID_ERROR, ENCODER_STREAM_ERROR, DECODER_STREAM_ERROR = 0x108, 0x201, 0x202
SESSION, REQUEST = "session", "request"


def number_at(content, at):
    """Returns the number at an offset, and the offset after it."""
    size = 1 << (content[at] >> 6)
    value = int.from_bytes(content[at : at + size], "big") & ((1 << (8 * size - 2)) - 1)
    return value, at + size


@dataclass
class Recorded:
    """A stream of a connection, as the peer of its sender receives it: its ID, its bytes, how it
    ended, who opened it (None: the sender), its session if it has one, how many interim responses
    it has, the events of its frames, what the stacks say of it, what an independent reader found,
    and what the stacks say of its other half."""

    stream: int
    content: bytes
    ended: str
    opened: str = None
    session: int = None
    interims: int = 0
    events: list = field(default_factory=list)
    said: list = field(default_factory=list)
    found: list = field(default_factory=list)
    other: list = field(default_factory=list)

    def lines(self, sizes):
        """Returns the lines of its bytes, in pieces of these sizes, and of its end."""
        digits, lines, at = self.content.hex(), [], 0
        while at < len(self.content):
            end = at + next(sizes)
            lines.append(f"bytes {self.stream} {digits[2 * at : 2 * end]}\n")
            at = end
        if self.ended == "fin" and lines:
            lines[-1] = lines[-1].replace("bytes", "end", 1)
        elif self.ended == "fin":
            lines.append(f"end {self.stream}\n")
        elif self.ended.startswith("reset") and self.session is None:
            lines.append(self.reset_line())
        return lines

    def reset_line(self):
        return f"reset {self.stream}\n"


class Wanted:
    """What a stream has to give, from its line of the index."""

    def __init__(self, content, kind, ended, found):
        self.content, self.kind, self.ended, self.found = content, kind, ended, found
        self.at, self.events, self.session = 0, [], None

    def all(self):
        """Returns the events."""
        self.opening()
        if not self.events or not ends_connection(self.events[-1]):
            self.items()
        is_over = self.events and ends_connection(self.events[-1])
        if self.ended == "fin" and not is_over:
            self.events.append(("end",))
        return self.events

    def opening(self):
        """Adds what the stream is for, if its first bytes say so."""
        if self.kind.startswith("unidirectional"):
            self.type_and_session()
        elif self.kind == "WebTransport stream, opened by this sender":
            self.at = 2
            self.with_session(self.found[0]["WEBTRANSPORT"])
        elif self.kind.endswith("opened by this sender"):
            self.events.append(("opened", 0, "message"))

    def type_and_session(self):
        name = self.found[0]["stream"]
        _, self.at = number_at(self.content, 0)
        if name == "WebTransport":
            self.with_session(self.found[0]["session"])
        elif name == "push":
            # (a client that allowed none)
            self.events.append(("fault", ID_ERROR, "connection"))
        else:
            word = name.split()[-1] if name.startswith("QPACK") else name
            word = "ignored" if " 0x" in name else word
            self.events.append(("opened", self.at, word))
            self.instructions(word)

    def instructions(self, word):
        """Adds the error of instructions for a table, since none is allowed here. (What they are
        is not in the index.)"""
        content = self.content[self.at :]
        if word == "encoder" and content.strip(b"\x20"):
            self.events.append(("fault", ENCODER_STREAM_ERROR, "connection"))
        elif word == "decoder" and decoder_fault(content):
            self.events.append(("fault", DECODER_STREAM_ERROR, "connection"))

    def with_session(self, session):
        self.session, self.at = number_at(self.content, self.at)
        assert self.session == session
        self.events.append(("opened", self.at, SESSION, str(session)))

    def items(self):
        """Adds the frames, or the bytes of an application."""
        if any("application bytes" in thing for thing in self.found):
            size = next(thing["application bytes"] for thing in self.found)
            self.data(size)
        elif self.session is not None:
            self.data(self.found[0]["bytes"])
        elif "stream" not in self.found[0] or self.found[0]["stream"] == "control":
            self.frames()

    def data(self, size):
        if size:
            self.events.append(("data", self.at, self.at + size))
        assert self.at + size <= len(self.content)

    def frames(self):
        for thing in self.found:
            name, size = next(iter(thing.items()))
            if name == "left":
                self.cut_frame(size)
            elif name not in OTHERS:
                if name == "PUSH_PROMISE":
                    # (a client that allowed no push)
                    self.events.append(("fault", ID_ERROR, "connection"))
                    return
                self.frame(name, size)
                if name == "SETTINGS":
                    pairs = [(int(number, 16), value) for number, value in thing["is"]]
                    place = (self.at - size, self.at)
                    self.events.append(("settings", *place, values_of(pairs)))

    def frame(self, name, size):
        _, length_at = number_at(self.content, self.at)
        length, start = number_at(self.content, length_at)
        assert length == size, f"{name} of {length} bytes, where the index has {size}"
        self.at = start + size
        if name in WHOLE:
            self.events.append(("frame", name, start, self.at))
        elif name == "DATA" and size:
            self.events.append(("data", start, self.at))

    def cut_frame(self, size):
        """A frame that the recording ends in, which is one of DATA."""
        assert self.at + size == len(self.content)
        kind, length_at = number_at(self.content, self.at)
        _, start = number_at(self.content, length_at)
        assert kind == 0 and start < len(self.content)
        self.events.append(("data", start, len(self.content)))


class Connection:
    """The streams and datagrams of a connection in one direction."""

    def __init__(self, name):
        self.name, self.streams, self.datagrams = name, [], []

    @property
    def is_to_server(self):
        return self.name.endswith("c2s")

    def sessions(self):
        """Returns the sessions to which streams belong."""
        return sorted({stream.session for stream in self.streams} - {None})


def connections_in(folder):
    """Returns the connections of a folder of recordings, each direction by itself."""
    index = (folder / "index.tsv").read_text(encoding="utf-8").splitlines()[1:]
    lines = [line.split("\t") for line in index]
    said, found = ({line[0]: json.loads(line[at]) for line in lines} for at in (7, 8))
    connections = {}
    for file, _, _, place, kind, ended, *_ in lines:
        name = file.rsplit("-", 1)[0]
        connection = connections.setdefault(name, Connection(name))
        content = (folder / file).read_bytes()
        if kind == "datagram":
            connection.datagrams.append((found[file][0], content))
            continue
        stream = int(place.split()[1])
        wanted = Wanted(content, kind, ended, found[file])
        recorded = Recorded(stream, content, ended, events=wanted.all())
        recorded.session = wanted.session
        recorded.interims = interims_in(said[file])
        recorded.said, recorded.found = said[file], found[file]
        recorded.other = said.get(other_half(file), [])
        if kind == "WebTransport stream, opened by the other end":
            recorded.opened, recorded.session = SESSION, session_of(file, found)
        elif kind == "response, opened by the other end":
            recorded.opened = REQUEST
        connection.streams.append(recorded)
    return list(connections.values())


def interims_in(said):
    """Returns how many interim responses there are (RFC 9114, section 4.1)."""
    sections = [thing["HEADERS"] for thing in said if "HEADERS" in thing]
    return sum(name == ":status" and value < "2" for lines in sections for name, value in lines)


def session_of(file, found):
    """Returns the session of a stream that the other end opened, which its other half names."""
    return found[other_half(file)][0]["WEBTRANSPORT"]


def other_half(file):
    """Returns the name of the file with the other direction of a stream."""
    return file.replace("c2s", "s2c") if "c2s" in file else file.replace("s2c", "c2s")
