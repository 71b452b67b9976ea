"""Events of streams with their messages and sessions, and what they say."""

from session_model import joined_events

GONE = 0x170D7B68
# How many streams may wait for sessions.
MAX_WAITING = 16
# The last events of streams.
OVER = ("malformed", "end", "reset", "abandoned", "fault")
# Those of the header sections of final messages.
HEADS = ("request", "asked", "response", "ready", "rejected")


def bytes_in(word):
    return b"" if word == "-" else bytes.fromhex(word)


def fields_in(words):
    """Returns fields."""
    pairs = (word.split(":") for word in words)
    return [(bytes.fromhex(name), bytes.fromhex(value)) for name, value in pairs]


def event_in(name, words, at):
    """Returns the event of a line, after which this is the offset in the stream."""
    if name in ("opened", "joins", "joined", "goaway"):
        return (name, words[0] if name == "opened" else int(words[0]), at)
    if name == "settings":
        return (name, bytes_in(words[0]), tuple(words[1:]), at)
    if name == "frame":
        return (name, words[0], bytes_in(words[1]), at)
    if name in ("request", "asked", "trailers"):
        return (name, fields_in(words), at)
    if name in ("interim", "response", "ready", "rejected"):
        return (name, int(words[0]), fields_in(words[1:]), at)
    if name in ("data", "bytes"):
        return (name, bytes_in(words[0]), at)
    if name == "closed":
        return (name, int(words[0]), bytes_in(words[1]))
    if name == "large":
        return (name, None if words[0] == "-" else int(words[0]), at)
    if name == "end":
        return (name, at)
    return event_without_offset(name, words)


def event_without_offset(name, words):
    if name == "fault":
        return (name, int(words[0]), words[1])
    if name == "reset":
        return (name, int(words[0]) if words else None)
    if name == "answered":
        return (name, int(words[0]))
    if name == "left":
        return (name, int(words[0]), words[1])
    if name == "datagram":
        return (name, bytes_in(words[0]))
    return (name,)


def session_events_in(lines):
    """Returns the stream and the event of each line. Lines without a stream have None."""
    found = []
    for line in lines:
        first, *words = line.split(" ")
        if not first.isdigit():
            found.append((None, (first, *words)))
        else:
            found.append((int(first), event_in(words[1], words[2:], int(words[0]))))
    return found


def of_streams(found):
    """Returns the events of each stream. Pieces that follow one another are one."""
    streams = {}
    for stream, event in found:
        if stream is not None:
            streams.setdefault(stream, []).append(event)
    return {stream: joined_events(events) for stream, events in streams.items()}


def is_last(event):
    """Returns whether an event is an error that ends the connection."""
    return event[0] == "fault" and event[2] == "connection"


def is_done(events):
    """Returns whether a stream gives nothing more after these events: no reset is told then."""
    return any(
        event[0] in OVER or event[0] == "large" and not any(e[0] in HEADS for e in events[:place])
        for place, event in enumerate(events)
    )
