"""What random scripts share: the bytes of streams of a connection, with and without errors."""

from connection_rows import frame, number
from recorded_connections import number_at

KINDS = [0x00, 0x01, 0x03, 0x04, 0x05, 0x07, 0x0D, 0x02, 0x06, 0x08, 0x09, 0x41, 0x21, 0xF0700]
UNKNOWN = [0x21, 0x40, 0x21 + 0x1F * 10**9, 0x0C, 0x89, 0xF0700, 0xF0701, 0x0F]
TYPES = [0x00, 0x02, 0x03, 0x54, 0x54, 0x21, 0x4455]
WRONG_TYPES = [0x00, 0x01, 0x02, 0x03]
SECTIONS = {
    # a request, a response, and trailers, with one more line to make them longer
    "request": b"\0\0\xd1\xd7\x50\x01a\xc1",
    "response": b"\0\0\xd9",
    "interim": b"\0\0\xd8",
    "trailers": b"\0\0\x23abc\x01x",
}
SETTINGS = [(0x01, 0), (0x06, 99), (0x07, 0), (0x08, 1), (0x33, 1), (0x2B603742, 1), (0x21, 7)]
WRONG_SETTINGS = [(0x02, 0), (0x00, 1), (0x08, 2), (0x33, 3), (0x06, 1), (0xC671706A, 9)]


class Maker:
    """Makes the bytes of streams, of half of the connections without errors."""

    def __init__(self, rng, side):
        self.rng, self.side = rng, side
        self.has_errors, self.types = rng.random() < 0.5, list(TYPES)

    def number(self, value):
        """Returns a number, sometimes in a longer form than it needs."""
        if self.rng.random() < 0.9:
            return number(value)
        sizes = [size for size in (1, 2, 4, 8) if value < 1 << (8 * size - 2)]
        return number(value, self.rng.choice(sizes))

    def frame(self, kind, payload):
        return self.number(kind) + self.number(len(payload)) + payload

    def bytes(self, most):
        return self.rng.randbytes(self.rng.randrange(most + 1))

    def section(self, name):
        more = self.rng.choice((0, 0, 0, 5, 60))
        line = b"\x23xyz" + bytes([more]) + b"v" * more if more else b""
        return self.frame(0x01, SECTIONS[name] + line)

    def wrong_frame(self):
        """Returns a frame of any type, which may be wrong in its place or by its length."""
        rng, kind = self.rng, self.rng.choice(KINDS)
        if rng.random() < 0.2:
            size = rng.choice((0, 7, 9, 4097, 65537, 2**40, 2**62 - 1))
            return self.number(kind) + self.number(size) + self.bytes(5)
        return self.frame(kind, self.bytes(9))

    def spoilt(self, frames):
        """Joins frames, of which some are sometimes moved, changed, or added."""
        rng = self.rng
        if not self.has_errors:
            return b"".join(frames)
        if rng.random() < 0.2:
            frames.insert(rng.randrange(len(frames) + 1), self.wrong_frame())
        if rng.random() < 0.05 and len(frames) > 1:
            rng.shuffle(frames)
        content = b"".join(frames)
        if rng.random() < 0.15:
            content = content[: rng.randrange(len(content) + 1)]
        return content

    def unknown(self):
        return self.frame(self.rng.choice(UNKNOWN), self.bytes(12))

    def message(self, name, interims=0):
        """Returns a message, with so many interim responses before it."""
        rng, frames = self.rng, []
        for part in (*["interim"] * interims, name, None, "trailers"):
            frames += [self.unknown() for _ in range(rng.choice((0, 0, 0, 1, 2)))]
            if part is None:
                frames += [self.frame(0x00, self.bytes(40)) for _ in range(rng.randrange(4))]
            elif part != "trailers" or rng.random() < 0.3:
                frames.append(self.section(part))
        if rng.random() < 0.01:
            frames += [frame(0x21)] * rng.choice((1022, 1023, 1024, 1025, 1026))
        return self.spoilt(frames)

    def control(self):
        rng = self.rng
        pairs = rng.sample(SETTINGS, rng.randrange(len(SETTINGS)))
        if self.has_errors and rng.random() < 0.1:
            pairs.append(rng.choice(WRONG_SETTINGS))
        settings = b"".join(self.number(name) + self.number(value) for name, value in pairs)
        frames, falling = [self.frame(0x04, settings)], 400
        for _ in range(rng.randrange(5)):
            if rng.random() < 0.5:
                frames.append(self.unknown())
            else:
                falling -= 4 * rng.randrange(3)
                frames.append(self.frame(0x07, self.number(falling)))
        if self.side.is_server:
            rising = [self.frame(0x0D, self.number(n)) for n in sorted(rng.sample(range(99), 2))]
            frames[1:1] = rising[: rng.randrange(3)]
        return self.spoilt(frames)

    def unidirectional(self):
        rng = self.rng
        kind = rng.choice(self.types)
        if self.has_errors and rng.random() < 0.1:
            kind = rng.choice(WRONG_TYPES)
        if not self.has_errors and kind in (0, 2, 3):
            self.types.remove(kind)
        if kind == 0:
            rest = self.control()
        elif kind == 0x54:
            rest = self.number(self.session()) + self.bytes(30)
        elif kind == 2:
            rest = b"\x20" * rng.randrange(3) + self.wrong_instruction()
        elif kind == 3:
            rest = bytes(0x40 | rng.randrange(60) for _ in range(rng.randrange(3)))
            rest += rng.choice((b"", b"\x7f\x05", b"\x7f\x85\x01")) + self.wrong_instruction()
        else:
            rest = self.bytes(12)
        content = self.number(kind) + rest
        return content[: rng.randrange(3)] if self.has_errors and rng.random() < 0.1 else content

    def wrong_instruction(self):
        """Returns an instruction of QPACK that may not come, sometimes."""
        if self.has_errors and self.rng.random() < 0.1:
            # (of the latter two the first is still to be read to its end, and the last is too long)
            wrong = (b"\x37aaaa", b"\x3f\xe1\x1f", b"\x80", b"\x00")
            return self.rng.choice((*wrong, b"\x7f" + b"\xff" * 9, b"\x7f" + b"\xff" * 10))
        return b""

    def session(self):
        if self.has_errors and self.rng.random() < 0.1:
            return self.rng.randrange(9)
        return self.rng.choice((0, 0, 4, 8))

    def session_stream(self):
        return self.number(0x41) + self.number(self.session()) + self.bytes(30)


def is_critical(stream, content):
    """Returns whether a stream may not end."""
    return stream % 4 >= 2 and number_at(content, 0)[0] in (0, 2, 3)
