"""What wt_inspect has to show of recorded streams and datagrams, by what the stacks that sent them
say.

A folder of recordings has an index.tsv: a line of names, then a line for each file with its name,
sender, direction, stream, kind, how it ended, its number of bytes, and two lists in JSON: what the
stacks themselves say of it, and what an independent reader found. What is expected comes from these
lines alone.
"""

import json
from dataclasses import dataclass

from inspect_reader import items_of
from section_bytes import sections_in

# What the index calls a frame type, and its number, which the items have (RFC 9114, section 11.2.1;
# RFC 9218, section 7.2).
FRAMES = {
    "DATA": 0,
    "HEADERS": 1,
    "SETTINGS": 4,
    "PUSH_PROMISE": 5,
    "GOAWAY": 7,
    "MAX_PUSH_ID": 13,
    "PRIORITY_UPDATE": 0xF0700,
    "PRIORITY_UPDATE(push)": 0xF0701,
}
CLOSE = "CLOSE_WEBTRANSPORT_SESSION"
# The runs in which a test put bytes there that no stack sends.
MADE = ("pyodd", "pygrease", "pylines")
# The setting of the largest capacity of the dynamic table (RFC 9204, section 5).
MAX_TABLE_CAPACITY = "0x1"


@dataclass
class Recording:
    """A line of the index: the file, its kind, how it ended, how many bytes it has, what the stacks
    say of it, and what an independent reader found."""

    file: str
    kind: str
    ended: str
    size: int
    said: list
    found: list

    @classmethod
    def of_line(cls, line):
        fields = line.split("\t")
        said, found = json.loads(fields[7]), json.loads(fields[8])
        return cls(fields[0], fields[4], fields[5], int(fields[6]), said, found)

    @property
    def way(self):
        """The connection and the direction, which are the name up to the stream."""
        return self.file.rsplit("-", 1)[0]

    def is_payload(self):
        """Returns whether all bytes are an application's."""
        return self.kind == "WebTransport stream, opened by the other end"

    @property
    def other_way(self):
        """The other direction of the connection."""
        return self.way[:-3] + {"c2s": "s2c", "s2c": "c2s"}.get(self.way[-3:], "")

    def is_encoder_stream(self):
        """Returns whether it is the stream with the instructions of a QPACK encoder."""
        return bool(self.found) and self.found[0].get("stream") == "QPACK encoder"

    def capacity(self):
        """Returns the capacity that its settings allow to the other end, if it has one."""
        pairs = [pair for thing in self.found for pair in thing.get("is", [])]
        return next((value for number, value in pairs if number == MAX_TABLE_CAPACITY), None)

    def has_instructions(self):
        """Returns whether it is a stream of QPACK."""
        return bool(self.found) and self.found[0].get("stream", "").startswith("QPACK")

    def is_push(self):
        """Returns whether it is a push stream, whose frames the index does not have."""
        return self.found[0].get("stream", "").startswith("push")

    def is_cut(self):
        """Returns whether the bytes end within a frame or a capsule."""
        capsules = [capsule for thing in self.found for capsule in thing.get("capsules", [])]
        return any("left" in thing for thing in self.found) or any(
            str(capsule).startswith("cut ") for capsule in capsules
        )

    def wanted_end(self):
        """Returns the state at the end and the status. A stream may not end within a frame (RFC
        9114, section 7.1) or a capsule (RFC 9297, section 3.3)."""
        if not self.is_cut():
            return "whole", 0
        return ("fault", 2) if self.ended == "fin" else ("cut", 0)

    def is_made(self):
        """Returns whether a test put bytes there that no stack sends."""
        return self.file.startswith(MADE)

    def arguments(self):
        """Returns the arguments of wt_inspect."""
        if self.kind == "datagram":
            return ["datagram", "--json"]
        if self.kind.startswith("unidirectional"):
            name = "uni"
        else:
            name = "bi" if self.kind.endswith("opened by this sender") else "response"
        return [name, "--json"] if self.ended == "fin" else [name, "--json", "--open"]


def as_bytes(value):
    """Returns the bytes of a value in JSON."""
    return bytes.fromhex(value["hex"]) if isinstance(value, dict) else value.encode()


def number_of(name):
    """Returns the number of a frame type by its name in the index."""
    return FRAMES[name] if name in FRAMES else int(name.split()[-1], 16)


def wanted_capsules(found):
    """Yields the capsules that the index has, as type or number, and code and reason."""
    for thing in found:
        for capsule in thing.get("capsules", []):
            if isinstance(capsule, str):
                continue
            if capsule[0] == CLOSE:
                yield CLOSE, capsule[1], capsule[2].encode()
            elif capsule[0].startswith("reserved "):
                yield int(capsule[0].split()[1], 16), capsule[1]


def shown_capsules(items):
    """Yields the same of the items. An unknown capsule is not compared, but for the reserved
    ones."""
    for item in items:
        for capsule in item.get("capsules", []):
            if capsule["type"] == CLOSE and "code" in capsule:
                yield CLOSE, capsule["code"], as_bytes(capsule["reason"])
            elif capsule["type"] == "reserved":
                yield int(capsule["number"]), int(capsule["payload"])


def wanted_frames(found):
    """Yields the frames that the index has: number, and payload."""
    skipped = (
        "capsules",
        "left",
        "stream",
        "quarter stream id",
        "WEBTRANSPORT",
        "application bytes",
    )
    for thing in found:
        name, size = next(iter(thing.items()))
        if name not in skipped:
            yield number_of(name), size


def compare_fields(recording, items):
    """Returns what is wrong with the field lines."""
    sections = [thing["HEADERS"] for thing in recording.said if "HEADERS" in thing]
    frames = [item for item in items if item.get("type") == "HEADERS"]
    for said, frame in zip(sections, frames):
        wanted = [tuple(part.encode("latin-1") for part in line) for line in said]
        if missing := frame.get("needs"):
            return f"fields: they need {missing}"
        shown = [tuple(as_bytes(part) for part in line) for line in frame.get("fields", [])]
        if wanted != shown:
            return f"fields: wanted {wanted}, found {shown}"
    return None


def count_sections(recording, content):
    """Returns how many field sections are compared, and how many of them need a dynamic table."""
    wanted = sum("HEADERS" in thing for thing in recording.said)
    sections = list(sections_in(content))[:wanted] if wanted else []
    return len(sections), sum(section[:1] != b"\0" for section in sections)


def compare_settings(recording, items):
    """Returns what is wrong with the settings."""
    wanted = [
        (int(number, 16), value)
        for thing in recording.found
        for number, value in thing.get("is", [])
    ]
    shown = [
        (int(setting["id"]), int(setting["value"]))
        for item in items
        for setting in item.get("settings", [])
    ]
    return None if wanted == shown else f"settings: wanted {wanted}, found {shown}"


def compare_first(recording, items):
    """Returns what is wrong with the first item."""
    first, item = recording.found[0], items[0]
    if "quarter stream id" in first:
        wanted = (first["quarter stream id"], first["bytes"])
        shown = (item.get("quarter"), item.get("payload"))
    elif "stream" in first:
        words = first["stream"].split()
        wanted = (words[0] if words[-1].startswith("0x") else first["stream"], first.get("session"))
        shown = (item.get("type"), item.get("session"))
    elif "WEBTRANSPORT" in first:
        wanted = (first["WEBTRANSPORT"], first["application bytes"])
        payload = sum(other["length"] for other in items if other["item"] == "payload")
        shown = (item.get("session"), payload)
    else:
        return None
    return None if wanted == shown else f"first item: wanted {wanted}, found {shown}"


def with_bytes(item):
    """Returns an item whose field has bytes."""
    field = [
        part if isinstance(part, bytes) or part_is_index(part) else as_bytes(part)
        for part in item.get("field", [])
    ]
    return {**item, "field": field}


def part_is_index(part):
    """Returns whether a part of a field is the index of an entry of the dynamic table."""
    return isinstance(part, dict) and "dynamic" in part


def compare_instructions(recording, items, content):
    """Returns what is wrong with the instructions of a stream of QPACK."""
    if not recording.has_instructions():
        return None
    wanted = items_of("uni", content, recording.ended != "fin")[0]
    for one, other in zip(wanted, items):
        if with_bytes(one) != with_bytes(other):
            return f"instruction: wanted {one}, found {other}"
    return None if len(items) == len(wanted) + 1 else f"{len(items) - 1} items"


def is_close_misplaced(recording, items):
    """Returns whether the data ends with a close that is not shown with the last of its frames."""
    *_, last = recording.found
    capsules = last.get("capsules") or [[None]]
    if capsules[-1][0] != CLOSE:
        return False
    data = [item for item in items if item.get("type") == "DATA"]
    shown = data[-1].get("capsules") or [{"type": None}]
    return shown[-1]["type"] != CLOSE


def compare(recording, content, items, status):
    """Returns what is wrong with the items of a recording, if something is."""
    if not items or items[-1]["item"] != "end":
        return "no end"
    tiles = [item for item in items if "length" in item]
    place = 0
    for item in tiles:
        if item["at"] != place:
            return f"an item at {item['at']}, where {place} was wanted"
        place += item["length"]
    if place != recording.size:
        return f"items of {place} bytes, where {recording.size} were wanted"
    state, is_cut = items[-1]["state"], recording.is_cut()
    if (state, status) != recording.wanted_end():
        return f"status {status} at an end that is {state}"
    frames = list(wanted_frames(recording.found))
    shown = [
        (int(item["number"]), int(item["payload"])) for item in items if item["item"] == "frame"
    ]
    if not recording.is_push() and (
        shown[: len(frames)] != frames or len(shown) > len(frames) + is_cut
    ):
        return f"frames: wanted {frames}, found {shown}"
    broken = [item["why"] for item in items if item["item"] == "warning"]
    if broken and not recording.is_made():
        return f"warnings: {broken}"
    if list(wanted_capsules(recording.found)) != list(shown_capsules(items)):
        return f"capsules: found {list(shown_capsules(items))}"
    if is_close_misplaced(recording, items):
        return "the close is not at the end of the data"
    return (compare_first(recording, tiles) if tiles else None) or (
        compare_fields(recording, items)
        or compare_settings(recording, items)
        or compare_instructions(recording, items, content)
    )


def compare_payload(recording, content):
    """Returns what is wrong with bytes that are all an application's."""
    wanted = [{"application bytes": len(content)}]
    return None if recording.found == wanted else f"{len(content)} bytes of an application"


def recordings_in(folder):
    """Returns the recordings of a folder, in the order of its index."""
    index = (folder / "index.tsv").read_text(encoding="utf-8").splitlines()
    return [Recording.of_line(line) for line in index[1:]]
