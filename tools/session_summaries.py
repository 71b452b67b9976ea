"""How the sessions of a recorded connection went, as an independent reader finds it in the bytes
that each end sent: what wt_inspect has to say of them, as objects and as lines of text.
"""

from dataclasses import dataclass

from inspect_reader import Section, items_of, number_at, opens_session

CLIENT, SERVER = "client", "server"
ENDS = (CLIENT, SERVER)
DATAGRAMS = "datagrams"
# The types of a stream of a session, with one direction or both (draft-ietf-webtrans-http3-02,
# section 4).
ONE_WAY, BOTH_WAYS = 0x54, 0x41
# What a message is read as.
KINDS = {CLIENT: "bi", SERVER: "session-response"}


@dataclass
class Said:
    """What an end sent on the stream of a session: the fields of its first header section that is
    not of an interim response, its first close, and how the bytes end."""

    fields: list
    close: tuple
    end: dict

    def value(self, name):
        """Returns the first value of this name."""
        if self.fields is None:
            return None
        return next((line[1] for line in self.fields if len(line) == 2 and line[0] == name), None)


def is_interim(fields):
    """Returns whether a response is one of those that others follow (RFC 9110, section 15.2)."""
    return any(line[0] == b":status" and line[1][:1] == b"1" for line in fields)


def said_by(end, content, is_open):
    """Returns what an end sent on the stream of a session."""
    items, last = items_of(KINDS[end], content, is_open)
    frames = [item for item in items if item.get("type") == "HEADERS"]
    heads = [item["fields"] for item in frames if "fields" in item]
    closes = [one for item in items for one in item.get("capsules", []) if "code" in one]
    return Said(
        next((fields for fields in heads if not is_interim(fields)), None),
        next(((one["code"], one["reason"]) for one in closes), None),
        last,
    )


def named_by(stream, content):
    """Returns the session that a stream names, by the bytes of the end that opened it."""
    first = number_at(content, 0)
    wanted = ONE_WAY if stream & 2 else BOTH_WAYS
    if not first or first[0] != wanted:
        return None
    session = number_at(content, first[1])
    return session[0] if session and session[0] % 4 == 0 else None


def session_of_datagram(content):
    """Returns the session that a datagram names (RFC 9297, section 2.1)."""
    quarter = number_at(content, 0)
    return 4 * quarter[0] if quarter and quarter[0] < 1 << 60 else None


class Recording:
    """What was recorded of a connection: the bytes of each direction of a stream, by the ID and the
    end, and those of datagrams."""

    def __init__(self, pieces):
        self.streams = {(at, end): content for at, end, content in pieces if at != DATAGRAMS}
        datagrams = [content for at, _, content in pieces if at == DATAGRAMS]
        self.by_stream = {
            stream: named
            for (stream, end), content in self.streams.items()
            if stream % 2 == ENDS.index(end)
            and (named := named_by(stream, content)) is not None
        }
        named = map(session_of_datagram, datagrams)
        self.by_datagram = [session for session in named if session is not None]

    def sessions(self):
        """Returns the IDs of the sessions, in order."""
        opened = [
            stream
            for (stream, end), content in self.streams.items()
            if end == CLIENT and self.is_request(stream) and opens(content)
        ]
        return sorted({*self.by_stream.values(), *self.by_datagram, *opened})

    def is_request(self, stream):
        """Returns whether a stream is that of a request."""
        if stream % 4 or stream in self.by_stream:
            return False
        first = number_at(self.streams.get((stream, CLIENT), b""), 0)
        return not first or first[0] != BOTH_WAYS

    def said(self, session, end, is_open):
        """Returns what an end sent on the stream of a session, or None if that was not recorded."""
        if not self.is_request(session) or (session, end) not in self.streams:
            return None
        return said_by(end, self.streams[session, end], is_open)


def opens(content):
    """Returns whether the first header section of a request opens a session."""
    items, _ = items_of("bi", content, True)
    for item in items:
        if item.get("type") == "HEADERS" and "fields" in item:
            is_bad, needs_table = "stopped" in item, "needs" in item
            return opens_session("bi", Section(item["fields"], None, is_bad, needs_table))
    return False


@dataclass
class Summary:
    """How a session went."""

    session: int
    client: Said
    server: Said
    streams: int
    datagrams: int
    is_open: bool

    def ends(self):
        """Returns each end that was recorded, and what it said."""
        return [(end, said) for end, said in zip(ENDS, (self.client, self.server)) if said]

    def status(self):
        return self.server.value(b":status") if self.server else None

    def closes(self):
        """Returns the closes: the end, the code and the reason."""
        return [(end, *said.close) for end, said in self.ends() if said.close]

    def ending(self):
        """Returns how it ended, and which end ended it without a close."""
        status = self.status()
        if status is not None and status[:1] != b"2":
            return "refused", None
        if self.closes():
            return "closed", None
        if self.is_open:
            return "open", None
        whole = [end for end, said in self.ends() if said.end["state"] == "whole"]
        if len(whole) == 2:
            return "ended", "both"
        return ("ended", whole[0]) if whole else ("unknown", None)

    def broken(self):
        """Returns where what the ends sent is broken: the end, how, and the place."""
        return [
            (end, said.end["state"], said.end["at"])
            for end, said in self.ends()
            if said.end["state"] != "whole"
        ]

    def shown(self):
        """Returns the object of JSON, whose texts are bytes."""
        ending, by = self.ending()
        found = {"session": self.session}
        for name in ("path", "authority"):
            found[name] = self.client.value(b":" + name.encode()) if self.client else None
        found["status"] = number_of(self.status())
        found |= {"streams": self.streams, "datagrams": self.datagrams}
        found |= {f"{end}_{state}": at for end, state, at in self.broken()}
        found |= {"end": ending.encode(), "ended_by": by and by.encode()}
        if ending == "closed":
            first, *others = self.closes()
            found |= close_of(*first)
            found |= {"also": close_of(*close) for close in others}
        return {name: value for name, value in found.items() if value is not None}

    def words(self):
        """Returns the line of text."""
        counts = [counted(self.streams, "stream"), counted(self.datagrams, "datagram")]
        about = [self.request(), *self.response(), *counts]
        states = {"fault": "has a fault", "cut": "is cut"}
        last = [
            f"stream {self.session} of the {end} {states[state]} at byte {at}"
            for end, state, at in self.broken()
        ]
        return "; ".join([f"session {self.session}: {', '.join(about)}", *last, self.last_words()])

    def request(self):
        if not self.client:
            return "request not recorded"
        if self.client.fields is None:
            return "no request"
        path, authority = self.client.value(b":path"), self.client.value(b":authority")
        words = "unknown path" if path is None else shown_name(path)
        return words if authority is None else f"{words} at {shown_name(authority)}"

    def response(self):
        if self.ending()[0] == "refused":
            return []
        if not self.server:
            return ["response not recorded"]
        if self.server.fields is None:
            return ["no response"]
        status = self.status()
        return ["unknown status" if status is None else f"status {shown_name(status)}"]

    def last_words(self):
        ending, by = self.ending()
        if ending == "refused":
            return f"refused with status {shown_name(self.status())}"
        if ending == "closed":
            return "; ".join(closed_words(*close) for close in self.closes())
        if ending == "ended":
            who = "both ends" if by == "both" else f"the {by}"
            return f"ended by {who} without a close (code 0)"
        return "open" if ending == "open" else "end unknown"


def close_of(end, code, reason):
    """Returns the members of a close."""
    return {"closed_by": end.encode(), "code": code, "reason": reason}


def closed_words(end, code, reason):
    """Returns the words of a close, in which a quotation mark of the reason is escaped."""
    words = f"closed by the {end}: code {code}"
    if not reason:
        return words
    shown = shown_reason(reason).replace('"', "\\x22")
    return f'{words}, "{shown}"'


def counted(count, word):
    return f"{count} {word}{'' if count == 1 else 's'}"


def number_of(status):
    """Returns a status of three digits as a number."""
    is_number = status is not None and len(status) == 3 and status.isdigit()
    return int(status) if is_number else status


def escaped(value, other):
    return "".join(f"\\x{byte:02x}" if other(byte) else chr(byte) for byte in value)


def shown_name(value):
    """Returns a value in which each byte that is not printable ASCII, each blank and each backslash
    is escaped."""
    return escaped(value, lambda byte: not 0x21 <= byte <= 0x7E or byte == 0x5C)


def shown_reason(value):
    """Returns a text as it is, or escaped if a character of it needs that."""
    text = value.decode()
    is_plain = text.isprintable() and "\\" not in text and "\u258c" not in text
    if is_plain:
        return text
    return escaped(value, lambda byte: not 0x20 <= byte <= 0x7E or byte == 0x5C)


def summaries_of(recording, is_open):
    """Returns how each session of a recorded connection went, by its ID."""
    streams, datagrams = list(recording.by_stream.values()), recording.by_datagram
    return [
        Summary(
            session,
            recording.said(session, CLIENT, is_open),
            recording.said(session, SERVER, is_open),
            streams.count(session),
            datagrams.count(session),
            is_open,
        )
        for session in recording.sessions()
    ]


def as_found(value):
    """Returns a value of JSON as `shown` has it."""
    if isinstance(value, dict):
        if set(value) == {"hex"}:
            return bytes.fromhex(value["hex"])
        return {name: as_found(part) for name, part in value.items()}
    return value.encode() if isinstance(value, str) else value


def is_summary(item):
    """Returns whether a line of JSON is that of a session."""
    return "item" not in item and "verdict" not in item
