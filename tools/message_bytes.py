"""The bytes of field sections, messages and capsules, for rows of sessions and for random ones."""

from connection_rows import frame, number


def prefixed(mark, bits, value):
    """Returns an integer after a mark (RFC 7541, section 5.1)."""
    most = (1 << bits) - 1
    if value < most:
        return bytes([mark | value])
    out, value = [mark | most], value - most
    while value >= 128:
        out.append(value % 128 | 128)
        value //= 128
    return bytes([*out, value])


def line(name, value):
    """Returns a literal line with a literal name (RFC 9204, section 4.5.6)."""
    return prefixed(0x20, 3, len(name)) + name + prefixed(0, 7, len(value)) + value


def section(*fields):
    return b"\0\0" + b"".join(line(name, value) for name, value in fields)


def headers(*fields):
    return frame(0x01, section(*fields))


GET = [(b":method", b"GET"), (b":scheme", b"https"), (b":authority", b"a"), (b":path", b"/")]
SESSION = [(b":method", b"CONNECT"), *GET[1:], (b":protocol", b"webtransport")]
CONNECT = [(b":method", b"CONNECT"), (b":authority", b"a:443")]
# The control streams of a client and of a server that allow sessions.
BOTH = number(0x33) + b"\1" + number(0x2B603742) + b"\1"
OF_CLIENT = (b"\0" + frame(0x04, BOTH)).hex()
OF_SERVER = (b"\0" + frame(0x04, BOTH + b"\x08\1")).hex()
CLOSE = number(0x2843)


def data(content):
    return frame(0x00, content)


def capsule(kind, value):
    return number(kind) + number(len(value)) + value
