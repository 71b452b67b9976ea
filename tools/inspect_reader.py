"""What the bytes of a stream or datagram contain, as wt_inspect should show it in JSON.

It is written from RFC 9114, RFC 9204, RFC 9297, RFC 7541 and draft-ietf-webtrans-http3-02, and
shares no code with the program. The entries of the static table are those of nghttp3; the code of
Huffman text is canonical, so the lengths of its words are enough. What is wrong with the fields of
a message is not judged.

`items_of(kind, content, is_open)` returns the items and the end. A reason or a field is bytes.
"""

from dataclasses import dataclass, field
from functools import cache

from nghttp3_sections import fields_of

# Frame types (RFC 9114, section 7.2; RFC 9218, section 7.2), and those of HTTP/2.
DATA, HEADERS, CANCEL_PUSH, SETTINGS, PUSH_PROMISE, GOAWAY, MAX_PUSH_ID = 0, 1, 3, 4, 5, 7, 13
PRIORITIES = (0xF0700, 0xF0701)
FRAMES = {
    DATA: "DATA",
    HEADERS: "HEADERS",
    CANCEL_PUSH: "CANCEL_PUSH",
    SETTINGS: "SETTINGS",
    PUSH_PROMISE: "PUSH_PROMISE",
    GOAWAY: "GOAWAY",
    MAX_PUSH_ID: "MAX_PUSH_ID",
    **dict.fromkeys(PRIORITIES, "PRIORITY_UPDATE"),
    **dict.fromkeys((2, 6, 8, 9), "HTTP/2"),
}
WEBTRANSPORT_FRAME, WEBTRANSPORT_STREAM = 0x41, 0x54
STREAMS = {0: "control", 1: "push", 2: "QPACK encoder", 3: "QPACK decoder", 0x54: "WebTransport"}
SETTING_NAMES = {
    0x01: "SETTINGS_QPACK_MAX_TABLE_CAPACITY",
    0x06: "SETTINGS_MAX_FIELD_SECTION_SIZE",
    0x07: "SETTINGS_QPACK_BLOCKED_STREAMS",
    0x08: "SETTINGS_ENABLE_CONNECT_PROTOCOL",
    0x33: "SETTINGS_H3_DATAGRAM",
    0x2B603742: "SETTINGS_ENABLE_WEBTRANSPORT",
    0xC671706A: "SETTINGS_WEBTRANSPORT_MAX_SESSIONS",
}
DRAFT_SETTINGS = {
    0xFFD277: "SETTINGS_H3_DATAGRAM_DRAFT04",
    0x2B61: "SETTINGS_WT_INITIAL_MAX_DATA",
    0x2B64: "SETTINGS_WT_INITIAL_MAX_STREAMS_UNI",
    0x2B65: "SETTINGS_WT_INITIAL_MAX_STREAMS_BIDI",
    0x14E9CD29: "SETTINGS_WT_MAX_SESSIONS",
    0x2C7CF000: "SETTINGS_WT_ENABLED",
}
OF_HTTP2 = (0, 2, 3, 4, 5)
FLAGS = (0x08, 0x33, 0x2B603742)
CLOSE = 0x2843
CAPSULES = {
    0x00: "DATAGRAM",
    CLOSE: "CLOSE_WEBTRANSPORT_SESSION",
    0x78AE: "DRAIN_WEBTRANSPORT_SESSION",
    0x190B4D3D: "WT_MAX_DATA",
    0x190B4D3E: "WT_MAX_STREAM_DATA",
    0x190B4D3F: "WT_MAX_STREAMS_BIDI",
    0x190B4D40: "WT_MAX_STREAMS_UNI",
    0x190B4D41: "WT_DATA_BLOCKED",
    0x190B4D42: "WT_STREAM_DATA_BLOCKED",
    0x190B4D43: "WT_STREAMS_BLOCKED_BIDI",
    0x190B4D44: "WT_STREAMS_BLOCKED_UNI",
}
# The capsules of flow control, by how many integers are their values (draft-ietf-webtrans-http3).
LIMITS = dict.fromkeys((0x190B4D3D, 0x190B4D3F, 0x190B4D40, 0x190B4D41, 0x190B4D43, 0x190B4D44), 1)
LIMITS |= dict.fromkeys((0x190B4D3E, 0x190B4D42), 2)
PROTOCOLS = (b"webtransport", b"webtransport-h3", b"connect-udp", b"connect-ip")
# The longest value of a close: a code, and a reason of 1024 bytes.
LONGEST_CLOSE = 4 + 1024
CODES = {
    "H3_ID_ERROR": 0x108,
    "H3_FRAME_UNEXPECTED": 0x105,
    "H3_FRAME_ERROR": 0x106,
    "H3_SETTINGS_ERROR": 0x109,
    "H3_MESSAGE_ERROR": 0x10E,
    "H3_DATAGRAM_ERROR": 0x33,
    "QPACK_DECOMPRESSION_FAILED": 0x200,
    "QPACK_ENCODER_STREAM_ERROR": 0x201,
    "QPACK_DECODER_STREAM_ERROR": 0x202,
}
# The symbols of Huffman text by the length of their words (RFC 7541, appendix B).
WORDS = {
    5: b"012aceiost",
    6: b" %-./3456789=A_bdfghlmnpru",
    7: b":BCDEFGHIJKLMNOPQRSTUVWYjkqvwxyz",
    8: b"&*,;XZ",
    10: b'!"()?',
    11: b"'+|",
    12: b"#>",
    13: b"\x00$@[]~",
    14: b"^}",
    15: b"<`{",
    19: bytes((92, 195, 208)),
    20: bytes((128, 130, 131, 162, 184, 194, 224, 226)),
    21: bytes((153, 161, 167, 172, 176, 177, 179, 209, 216, 217, 227, 229, 230)),
    22: bytes(
        (129, 132, 133, 134, 136, 146, 154, 156, 160, 163, 164, 169, 170, 173, 178, 181, 185)
        + (186, 187, 189, 190, 196, 198, 228, 232, 233)
    ),
    23: bytes(
        (1, 135, 137, 138, 139, 140, 141, 143, 147, 149, 150, 151, 152, 155, 157, 158, 165, 166)
        + (168, 174, 175, 180, 182, 183, 188, 191, 197, 231, 239)
    ),
    24: bytes((9, 142, 144, 145, 148, 159, 171, 206, 215, 225, 236, 237)),
    25: bytes((199, 207, 234, 235)),
    26: bytes((192, 193, 200, 201, 202, 205, 210, 213, 218, 219, 238, 240, 242, 243, 255)),
    27: bytes((203, 204, 211, 212, 214, 221, 222, 223, 241, 244, 245, 246, 247, 248, 250, 251))
    + bytes((252, 253, 254)),
    28: bytes(
        (2, 3, 4, 5, 6, 7, 8, 11, 12, 14, 15, 16, 17, 18, 19, 20, 21, 23, 24, 25, 26, 27, 28, 29)
        + (30, 31, 127, 220, 249)
    ),
    30: bytes((10, 13, 22)),
}


class Bad(Exception):
    """Bytes that cannot be decoded."""


class Short(Bad):
    """Too few bytes."""


@cache
def words():
    """Returns the symbol of each word, by its length and number: the code is canonical."""
    found, number, before = {}, 0, 0
    for length in sorted(WORDS):
        number <<= length - before
        for symbol in WORDS[length]:
            found[length, number] = symbol
            number += 1
        before = length
    # the end of string takes the last word
    if len(found) != 256 or number != (1 << 30) - 1:
        raise ValueError("no complete code")
    return found


@cache
def static_table():
    """Returns the entries of the static table (RFC 9204, appendix A)."""
    lines = [bytes((0xC0 | index,)) for index in range(63)]
    lines += [bytes((0xFF, index)) for index in range(36)]
    return [fields_of(b"\0\0" + line)[0] for line in lines]


def huffman(content):
    """Returns the text of Huffman words (RFC 7541, section 5.2). The padding is the first bits of
    the end of string, fewer than eight."""
    text, number, length = bytearray(), 0, 0
    for byte in content:
        for place in range(7, -1, -1):
            number, length = number << 1 | (byte >> place & 1), length + 1
            symbol = words().get((length, number))
            if symbol is not None:
                text.append(symbol)
                number, length = 0, 0
            elif length >= 30:
                raise Bad("the end of string")
    if length > 7 or number != (1 << length) - 1:
        raise Bad("padding")
    return bytes(text)


def number_at(content, at):
    """Returns the number at an offset and the offset after it, or None if it is not whole (RFC
    9000, section 16)."""
    if at >= len(content):
        return None
    size = 1 << (content[at] >> 6)
    if at + size > len(content):
        return None
    return int.from_bytes(content[at : at + size], "big") % (1 << (8 * size - 2)), at + size


def pair_at(content, at):
    """Returns two numbers and the offset after them, or None."""
    first = number_at(content, at)
    second = first and number_at(content, first[1])
    return second and (first[0], second[0], second[1])


def missing_of_number(content):
    """Returns how many bytes a number that begins with these needs at least, in all."""
    return 1 << (content[0] >> 6) if content else 1


def missing_of_pair(content):
    """Returns how many bytes are missing of two numbers, at least."""
    first = missing_of_number(content)
    return first + missing_of_number(content[first:]) - len(content)


def is_reserved(number, step=0x1F, start=0x21):
    """Whether a type is one that must be ignored (RFC 9114, section 7.2.8)."""
    return number >= start and (number - start) % step == 0


def integer_at(content, at, bits):
    """Returns an integer with a prefix and the offset after it (RFC 7541, section 5.1)."""
    if at >= len(content):
        raise Short("the end")
    most = (1 << bits) - 1
    value = content[at] & most
    at += 1
    if value < most:
        return value, at
    shift = 0
    while True:
        if at >= len(content):
            raise Short("the end")
        byte = content[at]
        at += 1
        value += (byte & 127) << shift
        shift += 7
        if value >= 1 << 64:
            raise Bad("too large")
        if byte < 128:
            return value, at


def literal_at(content, at, bits):
    """Returns whether a string literal is Huffman text, its bytes, and the offset after it (RFC
    9204, section 4.1.2)."""
    if at >= len(content):
        raise Short("the end")
    is_huffman = content[at] >> bits & 1
    size, at = integer_at(content, at, bits)
    if at + size > len(content):
        raise Short("the end")
    return (is_huffman, content[at : at + size]), at + size


def text_of(string):
    """Returns the text of a string literal."""
    is_huffman, content = string
    return huffman(content) if is_huffman else content


def string_at(content, at, bits):
    """Returns the text of a string literal and the offset after it."""
    string, at = literal_at(content, at, bits)
    return text_of(string), at


def entry(index):
    """Returns an entry of the static table."""
    if index >= len(static_table()):
        raise Bad("no entry")
    return static_table()[index]


def line_at(content, at, has_table):
    """Returns the field line at an offset and the offset after it (RFC 9204, sections 4.5.2 to
    4.5.6). What the dynamic table has is shown as its index, if the section needs one."""
    first = content[at]

    def of_table(key, bits):
        index, after = integer_at(content, at, bits)
        if not has_table:
            raise Bad("no entry")
        return {key: index}, after

    if first & 0x80:
        if first & 0x40:
            index, at = integer_at(content, at, 6)
            return entry(index), at
        index, at = of_table("dynamic", 6)
        return (index,), at
    if first & 0x40:
        if first & 0x10:
            index, at = integer_at(content, at, 4)
            name = entry(index)[0]
        else:
            name, at = of_table("dynamic", 4)
    elif first & 0x20:
        name, at = string_at(content, at, 3)
    elif first & 0x10:
        index, at = of_table("post_base", 4)
        return (index,), at
    else:
        name, at = of_table("post_base", 3)
    value, at = string_at(content, at, 7)
    return (name, value), at


def insertion_at(content, at):
    """Returns the members of an instruction of an encoder stream and the offset after it (RFC 9204,
    section 4.3). An instruction is read to its end before its strings are."""
    first = content[at]
    if first & 0x80:
        index, at = integer_at(content, at, 6)
        value, at = literal_at(content, at, 7)
        name = {"dynamic": index} if not first & 0x40 else entry(index)[0]
        members = {"static": index} if first & 0x40 else {}
        members["field"] = (name, text_of(value))
        return {"type": "Insert with Name Reference", **members}, at
    if first & 0x40:
        name, at = literal_at(content, at, 5)
        value, at = literal_at(content, at, 7)
        line = (text_of(name), text_of(value))
        return {"type": "Insert with Literal Name", "field": line}, at
    number, at = integer_at(content, at, 5)
    if first & 0x20:
        return {"type": "Set Dynamic Table Capacity", "capacity": number}, at
    return {"type": "Duplicate", "field": ({"dynamic": number},)}, at


def acknowledgment_at(content, at):
    """Returns the members of an instruction of a decoder stream and the offset after it (RFC 9204,
    section 4.4)."""
    first = content[at]
    number, at = integer_at(content, at, 7 if first & 0x80 else 6)
    if first & 0x80:
        return {"type": "Section Acknowledgment", "stream": number}, at
    if first & 0x40:
        return {"type": "Stream Cancellation", "stream": number}, at
    if number == 0:
        raise Bad("an increment of 0")
    return {"type": "Insert Count Increment", "increment": number}, at


@dataclass
class Section:
    """A field section: its lines, and what is missing of them or whether they stop early."""

    lines: list = field(default_factory=list)
    count: int = None
    is_bad: bool = False
    needs_table: bool = False

    def shown(self):
        """Returns the members that show it."""
        members = {"fields": self.lines}
        if self.is_bad:
            members["stopped"] = True
        elif self.needs_table:
            members |= {"needs": "an encoder stream", "insert_count": self.count}
        return members

    def has(self, name):
        """Returns whether a line has this name."""
        return any(line[0] == name for line in self.lines)

    def values(self, name):
        """Returns the values of the lines of this name."""
        return [line[1] for line in self.lines if line[0] == name and len(line) == 2]


def section_of(content):
    """Reads a field section without an encoder stream (RFC 9204, section 4.5)."""
    section = Section()
    try:
        section.count, at = integer_at(content, 0, 8)
        section.needs_table = section.count > 0
        is_negative = at < len(content) and content[at] >> 7
        _, at = integer_at(content, at, 7)
        if is_negative and section.count == 0:
            raise Bad("a negative base")
        while at < len(content):
            line, at = line_at(content, at, section.needs_table)
            section.lines.append(line)
    except Bad:
        section.is_bad = True
    return section


def is_true_item(value):
    """Whether a Boolean item is true, whatever its parameters (RFC 8941, section 3.3.6)."""
    return value[:2] == b"?1" and (len(value) == 2 or value[2:3] == b";")


def opens_session(role, section):
    """Whether a section is that of a session (RFC 9297, section 3.1)."""
    is_true = any(is_true_item(value) for value in section.values(b"capsule-protocol"))
    if role == "bi":
        protocols = section.values(b":protocol")
        if any(protocol in PROTOCOLS for protocol in protocols):
            return True
        if section.has(b":protocol") and is_true:
            return True
        is_cut = section.is_bad or section.needs_table
        is_connect = b"CONNECT" in section.values(b":method")
        return is_cut and is_connect and not section.has(b":protocol")
    if any(value[:1] != b"2" for value in section.values(b":status")):
        return False
    return role == "session-response" or (
        is_true or section.has(b"sec-webtransport-http3-draft") or section.has(b"wt-protocol")
    )


def is_interim(role, section):
    """Whether a section is that of an interim response (RFC 9110, section 15.2)."""
    return role != "bi" and any(value[:1] == b"1" for value in section.values(b":status"))


def capsule_name(number):
    """Returns the name of a capsule type."""
    if number in CAPSULES:
        return CAPSULES[number]
    return "reserved" if number % 0x29 == 0x17 else "unknown"


def close_in(value):
    """Returns the code and the reason of a close, or None (draft-ietf-webtrans-http3-02, section
    5)."""
    if not 4 <= len(value) <= LONGEST_CLOSE:
        return None
    try:
        value[4:].decode()
    except UnicodeDecodeError:
        return None
    return {"code": int.from_bytes(value[:4], "big"), "reason": value[4:]}


def limit_in(number, value):
    """Returns the members that show the limit in a complete capsule."""
    first = number_at(value, 0)
    if LIMITS.get(number) == 1 and first and first[1] == len(value):
        return {"limit": first[0]}
    pair = pair_at(value, 0)
    if LIMITS.get(number) == 2 and pair and pair[2] == len(value):
        return {"stream": pair[0], "limit": pair[1]}
    return {}


def settings_of(content):
    """Returns the settings of a payload, and the code of their first fault, if they have one (RFC
    9114, section 7.2.4)."""
    shown, code, at, seen = [], None, 0, set()
    while at < len(content):
        pair = pair_at(content, at)
        if not pair:
            return shown, code or "H3_FRAME_ERROR"
        name, value, at = pair
        setting = {"id": name, "name": setting_name(name), "value": value}
        if name in OF_HTTP2:
            setting["fault"] = "http2"
            code = code or "H3_SETTINGS_ERROR"
        elif name in seen:
            setting["fault"] = "repeated"
            if name in SETTING_NAMES or is_reserved(name):
                code = code or "H3_SETTINGS_ERROR"
        elif name in FLAGS and value > 1:
            setting["fault"] = "value"
        seen.add(name)
        shown.append(setting)
    return shown, code


def setting_name(number):
    """Returns the name of a setting."""
    if number in OF_HTTP2:
        return "HTTP/2 setting"
    if is_reserved(number):
        return "reserved"
    return SETTING_NAMES.get(number) or DRAFT_SETTINGS.get(number, "unknown")


class Stop(Exception):
    """The end of the reading."""

    def __init__(self, **end):
        super().__init__()
        self.end = end


def faulted(at, name):
    """Returns the end at a fault."""
    return Stop(at=at, state="fault", code=CODES[name], name=name)


def cut(at, what, missing):
    """Returns the end within an item."""
    return Stop(at=at, state="cut", of=what, missing=missing)


class Reader:
    """The reading of a recording."""

    def __init__(self, kind, content, is_open):
        self.kind, self.content, self.is_open = kind, content, is_open
        self.items, self.at = [], 0
        # how far the message is: before its header section, or after it, with capsules or without
        self.stage = "opening"
        self.held, self.places = b"", []

    def read(self):
        """Returns the items and the end."""
        try:
            self.read_kind()
            end = self.end_of_all()
        except Stop as stop:
            end = self.closed(stop.end, "H3_FRAME_ERROR")
            if self.at < len(self.content):
                self.add(len(self.content) - self.at, item="unread")
        return self.items, {"item": "end", **end}

    def end_of_all(self):
        """Returns how bytes end that were read to the last."""
        if not self.content:
            name = {"datagram": "H3_DATAGRAM_ERROR", "section": "QPACK_DECOMPRESSION_FAILED"}
            if self.kind in name:
                return faulted(0, name[self.kind]).end
        if self.held:
            pair = pair_at(self.held, 0)
            missing = (
                pair[1] - (len(self.held) - pair[2]) if pair else missing_of_pair(self.held)
            )
            end = cut(self.places[0], "capsule", missing).end
            return self.closed(end, "H3_MESSAGE_ERROR")
        return {"at": len(self.content), "state": "whole"}

    def closed(self, end, name):
        """Returns the end of bytes that may not end so, if no more follow."""
        if end["state"] != "cut" or self.is_open:
            return end
        is_stream = self.kind in ("bi", "response", "session-response")
        if is_stream or (self.kind == "uni" and end["of"] == "frame"):
            return faulted(end["at"], name).end
        return end

    def add(self, length, **members):
        """Adds the item of the next bytes."""
        self.items.append({"at": self.at, "length": length, **members})
        self.at += length

    def left(self):
        """Returns the bytes that were not read."""
        return self.content[self.at :]

    def read_kind(self):
        """Reads all bytes."""
        content = self.content
        if self.kind == "uni":
            self.read_head()
        elif self.kind == "capsules":
            while self.at < len(content):
                self.read_capsule()
        elif self.kind == "datagram" and content:
            self.read_datagram()
        elif self.kind == "section" and content:
            section = section_of(content)
            self.add(len(content), item="section", **section.shown())
            if section.is_bad:
                raise faulted(0, "QPACK_DECOMPRESSION_FAILED")
        elif self.kind == "settings" and content:
            settings, code = settings_of(content)
            self.add(len(content), item="settings", settings=settings)
            if code:
                raise faulted(0, code)
        elif content:
            self.read_frames(self.kind)

    def read_datagram(self):
        """Reads a datagram (RFC 9297, section 2.1)."""
        number = number_at(self.content, 0)
        if not number or number[0] >= 1 << 60:
            raise faulted(0, "H3_DATAGRAM_ERROR")
        quarter, after = number
        members = {"quarter": quarter, "session": 4 * quarter}
        self.add(
            len(self.content), item="datagram", **members, payload=len(self.content) - after
        )

    def read_head(self):
        """Reads the head of a unidirectional stream, and what follows (RFC 9114, section 6.2)."""
        content = self.content
        if not content:
            return
        number = number_at(content, 0)
        if not number:
            raise cut(0, "stream type", missing_of_number(content) - len(content))
        kind, after = number
        members = {"item": "stream", "type": self.stream_name(kind), "number": kind}
        if kind in (1, WEBTRANSPORT_STREAM):
            pair = pair_at(content, 0)
            if not pair:
                raise cut(0, "stream type", missing_of_pair(content))
            _, second, after = pair
            if kind == WEBTRANSPORT_STREAM and second % 4:
                raise faulted(0, "H3_ID_ERROR")
            members["push" if kind == 1 else "session"] = second
        self.add(after, **members)
        if kind == 0:
            self.read_frames("control")
        elif kind == 1:
            self.read_frames("response")
        elif kind == 2:
            self.read_instructions(insertion_at, "QPACK_ENCODER_STREAM_ERROR")
        elif kind == 3:
            self.read_instructions(acknowledgment_at, "QPACK_DECODER_STREAM_ERROR")
        elif self.left():
            self.add(len(self.left()), item="payload")

    def read_instructions(self, instruction_at, name):
        """Reads instructions to the last byte."""
        while self.at < len(self.content):
            try:
                members, after = instruction_at(self.content, self.at)
            except Short as short:
                raise cut(self.at, "instruction", 1) from short
            except Bad as bad:
                raise faulted(self.at, name) from bad
            self.add(after - self.at, item="instruction", **members)

    @staticmethod
    def stream_name(kind):
        """Returns the name of a type of stream."""
        return STREAMS.get(kind) or ("reserved" if is_reserved(kind) else "unknown")

    def read_frames(self, role):
        """Reads frames to the last byte."""
        is_first = True
        while self.at < len(self.content):
            start = self.at
            pair = pair_at(self.content, start)
            if not pair:
                raise cut(start, "frame", missing_of_pair(self.left()))
            kind, length, after = pair
            if kind == WEBTRANSPORT_FRAME:
                self.read_session(role, is_first, length, after)
                return
            self.read_frame(role, kind, length, after)
            is_first = False

    def read_session(self, role, is_first, session, after):
        """Reads a WebTransport stream, whose type and session ID are the very first bytes of its
        stream (draft-ietf-webtrans-http3-02, section 4.2)."""
        if session % 4:
            raise faulted(self.at, "H3_ID_ERROR")
        if role != "bi":
            raise faulted(self.at, "H3_FRAME_UNEXPECTED")
        if not is_first:
            raise faulted(self.at, "H3_FRAME_ERROR")
        self.add(after - self.at, item="session", session=session)
        if self.left():
            self.add(len(self.left()), item="payload")

    def read_frame(self, role, kind, length, after):
        """Reads a frame, all of whose payload need not be there (RFC 9114, section 7.1)."""
        start, payload = self.at, self.content[after : after + length]
        name = FRAMES.get(kind) or ("reserved" if is_reserved(kind) else "unknown")
        members = {"item": "frame", "type": name, "number": kind, "payload": length}
        if len(payload) < length:
            members["present"] = len(payload)
        stop = None
        if is_refused(role, kind):
            stop = faulted(start, "H3_FRAME_UNEXPECTED")
        elif len(payload) < length:
            stop = cut(start, "frame", length - len(payload))
            if kind == DATA and self.stage == "session":
                stop = self.take_data(members, after, payload) or stop
        elif kind == DATA:
            if self.stage == "session":
                stop = self.take_data(members, after, payload)
        else:
            stop = self.take_payload(members, role, kind, payload)
        self.add(after - start + len(payload), **members)
        if stop:
            raise stop

    def take_payload(self, members, role, kind, payload):
        """Adds the members of a complete frame other than DATA. Returns where the reading stops, if
        it does."""
        if kind == HEADERS:
            section = section_of(payload)
            members.update(section.shown())
            self.take_section(role, section)
            return faulted(self.at, "QPACK_DECOMPRESSION_FAILED") if section.is_bad else None
        if kind == SETTINGS:
            members["settings"], code = settings_of(payload)
            return faulted(self.at, code) if code else None
        number = number_at(payload, 0)
        if not number:
            return None
        if kind in (GOAWAY, MAX_PUSH_ID, CANCEL_PUSH) and number[1] == len(payload):
            members["id"] = number[0]
        elif kind in PRIORITIES:
            members |= {"id": number[0], "priority": payload[number[1] :]}
        elif kind == PUSH_PROMISE:
            section = section_of(payload[number[1] :])
            members |= {"push": number[0], **section.shown()}
            return faulted(self.at, "QPACK_DECOMPRESSION_FAILED") if section.is_bad else None
        return None

    def take_section(self, role, section):
        """Finds out from a header section whether capsules follow."""
        if self.stage == "opening" and not is_interim(role, section):
            self.stage = "session" if opens_session(role, section) else "plain"

    def take_data(self, members, place, payload):
        """Adds the capsules that end in a DATA frame. Returns the fault of one, if it has one."""
        self.held += payload
        self.places += range(place, place + len(payload))
        members["capsules"] = shown = []
        while pair := pair_at(self.held, 0):
            number, length, after = pair
            if number == CLOSE and length > LONGEST_CLOSE:
                return faulted(self.places[0], "H3_DATAGRAM_ERROR")
            if len(self.held) < after + length:
                return None
            capsule = capsule_of(self.places[0], number, length)
            if number == CLOSE:
                close = close_in(self.held[after : after + length])
                if close is None:
                    return faulted(self.places[0], "H3_DATAGRAM_ERROR")
                capsule |= close
            capsule |= limit_in(number, self.held[after : after + length])
            shown.append(capsule)
            self.held = self.held[after + length :]
            self.places = self.places[after + length :]
        return None

    def read_capsule(self):
        """Reads a capsule that is outside of a frame (RFC 9297, section 3.2)."""
        start = self.at
        pair = pair_at(self.content, start)
        if not pair:
            raise cut(start, "capsule", missing_of_pair(self.left()))
        number, length, after = pair
        value = self.content[after : after + length]
        members = {"item": "capsule", **capsule_of(start, number, length)}
        del members["at"]
        stop = None
        if number == CLOSE and length > LONGEST_CLOSE:
            stop = faulted(start, "H3_DATAGRAM_ERROR")
        elif len(value) < length:
            stop = cut(start, "capsule", length - len(value))
        elif number == CLOSE:
            close = close_in(value)
            members |= close or {}
            stop = None if close else faulted(start, "H3_DATAGRAM_ERROR")
        else:
            members |= limit_in(number, value)
        self.add(after - start + len(value), **members)
        if stop:
            raise stop


def capsule_of(at, number, length):
    """Returns the members of a capsule."""
    return {"at": at, "type": capsule_name(number), "number": number, "payload": length}


def is_refused(role, kind):
    """Whether a stream does not allow a frame (RFC 9114, sections 7.2 and 7.2.8)."""
    if kind in (2, 6, 8, 9):
        return True
    return kind in (DATA, HEADERS) if role == "control" else kind == SETTINGS


def items_of(kind, content, is_open):
    """Returns the items of a recording, and its end."""
    return Reader(kind, content, is_open).read()
