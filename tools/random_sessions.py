"""Random scripts of whole connections, with messages, sessions, their streams and datagrams, in
three ways: one stream after the other, the same in pieces, and all in a random order, in pieces.
"""

import random
from dataclasses import dataclass

from connection_model import CONNECT, CRITICAL, DATAGRAM, DEFAULTS, Side, WEBTRANSPORT_ON
from connection_rows import frame
from message_bytes import CONNECT as TUNNEL
from message_bytes import GET, SESSION, capsule, line, prefixed
from nghttp3_sections import fields_of
from random_scripts import Maker, is_critical
from random_streams import StreamOfScript, mixed
from session_model import CLOSE, DRAIN, Surroundings, session_events

INCOMPLETE, CLOSED_CRITICAL = 0x10D, 0x104
# Entries of the static table (RFC 9204, appendix A).
STATIC = {
    **{(b":authority", b""): 0, (b":path", b"/"): 1, (b":method", b"CONNECT"): 15},
    **{(b":method", b"GET"): 17, (b":method", b"HEAD"): 18, (b":method", b"POST"): 20},
    **{(b":scheme", b"https"): 23, (b":status", b"103"): 24, (b":status", b"200"): 25},
    **{(b":status", b"304"): 26, (b":status", b"404"): 27, (b":status", b"503"): 28},
}
EXTRA = [
    (b"x", b"y"), (b"cookie", b"a=b"), (b"x-latin", b"\xe9"), (b"x", b""), (b"te", b"trailers")
]
# What makes a message malformed.
WRONG = [
    *(
        (b"X", b"y"),
        (b"", b"y"),
        (b"x", b"a\nb"),
        (b"x", b" a"),
        (b"connection", b"x"),
        (b"te", b"gzip"),
    ),
    *(
        (b":x", b"y"),
        (b":path", b"/"),
        (b":status", b"200"),
        (b"content-length", b"x"),
        (b"host", b"b"),
    ),
]
REQUESTS = {
    "get": GET,
    "post": [(b":method", b"POST"), *GET[1:]],
    "head": [(b":method", b"HEAD"), *GET[1:]],
    "connect": TUNNEL,
    "session": SESSION,
    "other": [*SESSION[:-1], (b":protocol", b"connect-udp")],
}
STATUSES = [b"200", b"200", b"200", b"204", b"304", b"404", b"503", b"999", b"299"]


class SessionMaker(Maker):
    """Makes the bytes of streams with messages and sessions, of half of the connections without
    errors."""

    def __init__(self, rng, side):
        super().__init__(rng, side)
        self.sessions = []

    def session(self):
        """Returns the ID of a session of the connection, or another one."""
        if not self.sessions or self.has_errors and self.rng.random() < 0.1:
            return self.rng.choice((0, 4, 8, 3600))
        return self.rng.choice(self.sessions)

    def encoded(self, fields):
        """Returns an encoded section, whose lines are written in one of several ways."""
        lines = [b"\0", b"\0" if self.rng.random() < 0.9 else b"\5"]
        for name, value in fields:
            place = STATIC.get((name, value))
            if place is not None and self.rng.random() < 0.7:
                lines.append(bytes([0xC0 | place]))
            elif name == b":authority" and self.rng.random() < 0.5:
                lines.append(b"\x50" + prefixed(0, 7, len(value)) + value)
            else:
                lines.append(line(name, value))
        if self.has_errors and self.rng.random() < 0.02:
            lines[0] = self.rng.choice((b"\1", b"\2", b""))
        return b"".join(lines)

    def fields(self, fields):
        """Returns a section with more fields, of which one is sometimes wrong."""
        rng, fields = self.rng, list(fields)
        fields += rng.sample(EXTRA[:-1], rng.choice((0, 0, 1, 2)))
        if self.has_errors and rng.random() < 0.08:
            fields.insert(rng.randrange(len(fields) + 1), rng.choice(WRONG))
        if self.has_errors and rng.random() < 0.04 and fields:
            fields.pop(rng.randrange(len(fields)))
        return self.frame(0x01, self.encoded(fields))

    def request(self, kind):
        """Returns a request of this kind."""
        fields, pieces = REQUESTS[kind], self.pieces()
        if kind in ("session", "connect", "other"):
            content = self.capsules() if kind == "session" else pieces
            return self.spoilt([self.fields(fields), *self.mixed(content)])
        return self.spoilt([*self.mixed([]), *self.with_content(fields, pieces), *self.trailers()])

    def response(self, asked):
        """Returns the response to a request for this."""
        rng, frames = self.rng, []
        for _ in range(rng.choice((0, 0, 0, 1, 2))):
            frames.append(self.fields([(b":status", rng.choice((b"103", b"100", b"199")))]))
        status = rng.choice(STATUSES)
        if asked in ("session", "connect") and rng.random() < 0.7:
            status = b"200"
        fields, is_accepted = [(b":status", status)], status[:1] == b"2"
        if asked in ("session", "connect") and is_accepted:
            content = self.capsules() if asked == "session" else self.pieces()
            return self.spoilt([*frames, self.fields(fields), *self.mixed(content)])
        pieces = [] if asked == "head" or status in (b"204", b"304") else self.pieces()
        if self.has_errors and rng.random() < 0.1:
            pieces = self.pieces()
        return self.spoilt([*frames, *self.with_content(fields, pieces), *self.trailers()])

    def pieces(self):
        """Returns DATA frames."""
        return [self.frame(0x00, self.bytes(20)) for _ in range(self.rng.randrange(4))]

    def with_content(self, fields, pieces):
        """Returns a section and DATA frames, whose length it sometimes announces."""
        rng = self.rng
        if rng.random() < 0.4:
            size = sum(len(piece) - piece_start(piece) for piece in pieces)
            if self.has_errors and rng.random() < 0.3:
                size = max(0, size + rng.choice((-1, 1, 5)))
            fields = [*fields, (b"content-length", str(size).encode())]
        return [self.fields(fields), *self.mixed(pieces)]

    def trailers(self):
        return [self.fields([(b"x-sum", b"1")])] if self.rng.random() < 0.3 else []

    def mixed(self, frames):
        """Returns frames with unknown ones between them."""
        found = []
        for one in [*frames, None]:
            found += [self.unknown() for _ in range(self.rng.choice((0, 0, 0, 1)))]
            found += [one] if one is not None else []
        return found

    def capsules(self):
        """Returns DATA frames with capsules, cut anywhere, of which the last one may be a close."""
        rng, content = self.rng, b""
        for _ in range(rng.choice((0, 0, 1, 2))):
            kind = rng.choice((0x17, 0x4242, 0x190B4D3D, DRAIN, 0x00))
            content += capsule(kind, b"" if kind == DRAIN else self.bytes(12))
        if rng.random() < 0.5:
            reason = rng.choice((b"", b"bye", "\xe9".encode()))
            if self.has_errors and rng.random() < 0.2:
                reason = rng.choice((b"\xff", b"x" * 1025))
            content += capsule(CLOSE, rng.randbytes(4) + reason)
        if self.has_errors and rng.random() < 0.2:
            content += rng.choice(
                (b"x", b"\x68", capsule(CLOSE, b"abc"), capsule(DRAIN, b"x"), b"\x17\5ab")
            )
        places = sorted(rng.randrange(len(content) + 1) for _ in range(rng.choice((0, 1, 3))))
        starts, ends = [0, *places], [*places, len(content)]
        return [self.frame(0x00, content[start:end]) for start, end in zip(starts, ends)]


def piece_start(piece):
    """Returns the offset of the payload of a frame."""
    first = 1 << (piece[0] >> 6)
    return first + (1 << (piece[first] >> 6))


@dataclass
class Stream(StreamOfScript):
    """A stream with who opened it, what it asked for, and the session that it was opened in."""

    opened: str = None
    asked: str = None
    session: int = None

    def first_line(self):
        if self.opened == "request":
            return f"request {self.stream} {self.asked}".rstrip() + "\n"
        return f"session {self.stream} {self.session}\n" if self.opened else ""


class SessionScript:
    """A connection, its streams, the answers to its requests, and its datagrams."""

    def __init__(self, seed):
        self.rng = rng = random.Random(seed)
        self.side = Side(rng.random() < 0.6, rng.random() < 0.9)
        self.maker, self.streams, self.counts = SessionMaker(rng, self.side), [], {}
        if rng.random() < 0.9 and self.side.webtransport:
            self.add_control()
        # (requests first, so that there are sessions for the other streams)
        for draw in sorted((rng.random() for _ in range(rng.randrange(1, 9))), reverse=True):
            self.add(draw)
        rng.shuffle(self.streams)
        requests = [s.stream for s in self.streams if s.stream % 4 == 0]
        chosen = [one for one in requests if rng.random() < 0.8] if self.side.is_server else []
        self.answers = {one: rng.choice((200, 200, 200, 299, 404, 503)) for one in chosen}
        self.datagrams = [self.datagram() for _ in range(rng.choice((0, 0, 1, 3)))]
        self.asked = {s.stream: s.asked for s in self.streams if s.opened == "request"}
        self.own = {s.stream: s.session for s in self.streams if s.opened == "session"}
        self.twins = self.find_twins()

    def datagram(self):
        rng = self.rng
        if self.maker.has_errors and rng.random() < 0.1:
            return rng.choice((b"", b"\x40", b"\xd0" + bytes(7)))
        return self.maker.number(self.maker.session() // 4) + self.maker.bytes(9)

    def next_id(self, first):
        self.counts[first] = self.counts.get(first, 0) + 1
        return first + 4 * (self.counts[first] - 1)

    def add_control(self):
        """Adds a control stream that allows sessions."""
        pairs = [(DATAGRAM, 1), (WEBTRANSPORT_ON, 1), (CONNECT, 1)]
        payload = b"".join(
            self.maker.number(name) + self.maker.number(value)
            for name, value in pairs
        )
        content = b"\0" + frame(0x04, payload)
        self.maker.types = [kind for kind in self.maker.types if kind]
        self.streams.append(Stream(self.next_id(2 if self.side.is_server else 3), content, False))

    def add(self, draw):
        """Adds a stream of the kind that a number says."""
        rng, maker, side = self.rng, self.maker, self.side
        of_peer = 0 if side.is_server else 1
        if draw < 0.3:
            stream = Stream(self.next_id(2 + of_peer), maker.unidirectional(), False)
        elif draw < 0.42:
            stream = Stream(self.next_id(of_peer), maker.session_stream(), False)
        elif draw < 0.47:
            stream = Stream(
                self.next_id(1 - of_peer), maker.bytes(30), False, "session", session=12
            )
        elif side.is_server:
            kind = rng.choice(
                ("get", "post", "head", "connect", "session", "session", "session", "other")
            )
            stream = Stream(self.next_id(0), maker.request(kind), False)
            maker.sessions += [stream.stream] * (kind == "session")
        else:
            asked = rng.choice(("", "head", "connect", "session", "session", "session"))
            stream = Stream(self.next_id(0), maker.response(asked), False, "request", asked)
            maker.sessions += [stream.stream] * (asked == "session")
        critical = is_critical(stream.stream, stream.content) if stream.content else False
        stream.fin = rng.random() < 0.6 and (maker.has_errors or not critical)
        if not stream.fin and rng.random() < 0.2:
            stream.left_by = rng.choice(("reset", "abandon"))
            if stream.left_by == "reset" and critical and not maker.has_errors:
                stream.left_by = ""
        self.streams.append(stream)

    # ---- its three ways

    def head(self):
        side = "server" if self.side.is_server else "client"
        enabled = " webtransport" if self.side.webtransport else " connect"
        return f"{side}{enabled}\n" + "".join(stream.first_line() for stream in self.streams)

    def text(self):
        """Returns the script of the three ways."""
        rng = self.rng
        whole = [stream.lines(stream.end()) for stream in self.streams]
        cut = [stream.lines(stream.cuts(rng)) for stream in self.streams]
        others = [[f"answer {stream} {status}\n"] for stream, status in self.answers.items()]
        others.append([f"datagram {content.hex()}\n" for content in self.datagrams])
        order = list(range(len(cut) + len(others)))
        rng.shuffle(order)
        head, ways = self.head(), []
        for parts in (whole, cut):
            lists = [*parts, *others]
            ways.append(head + "".join("".join(lists[index]) for index in order))
        ways.append(head + mixed(rng, [*cut, *others]))
        return "".join(ways)

    # ---- what they have to give

    def allows(self, settings):
        """Returns whether the settings of the peer allow sessions."""
        if settings is None or not self.side.webtransport:
            return False
        values = dict(zip(DEFAULTS, settings))
        is_on = any(values[name] != "0" for name in (WEBTRANSPORT_ON, 0xC671706A, 0x14E9CD29))
        return is_on and values[DATAGRAM] == "1" and (self.side.is_server or values[CONNECT] == "1")

    def find_twins(self):
        """Returns the streams of which a connection may have only one, and has more."""
        around = Surroundings()
        around.fields_of = fields_of
        purposes = {}
        for one in self.streams:
            if one.stream % 4 >= 2:
                _, purpose = session_events(self.side, one.stream, one.content, one.fin, around)
                purposes.setdefault(purpose, []).append(one.stream)
        return [s for kind in CRITICAL for s in purposes.get(kind, []) if len(purposes[kind]) > 1]
