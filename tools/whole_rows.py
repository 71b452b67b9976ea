"""Rows of wrong inputs, and of inputs that look wrong, as wt_recorded plays them to a whole
connection: the errors that QUIC is told to end streams and the connection with, and whether another
stream goes on."""

import connection_rows
from connection_rows import HEADERS, INCOMPLETE, LOAD, MESSAGE, RESPONSE, SESSION_GONE
from message_bytes import CONNECT, GET, OF_SERVER, SESSION, section
import session_rows
from whole_events import OUTPUTS, whole_events_in

REQUESTS = {
    "": GET, "head": [(b":method", b"HEAD"), *GET[1:]], "connect": CONNECT, "session": SESSION
}
# Another stream.
NEIGHBOUR = 404
# The code of resets and stops of a script, and of what is given up with them (RFC 9114, section
# 8.1): no row has it. From FIRST_CODE on there are those of applications.
CANCELLED, FIRST_CODE = 0x10C, 0x52E4A40FA8DB
# The capacity of a dynamic table, where the own decoder stream has to be there.
CAPACITY = 4096
# Errors that streams end with where there is no fault: a section above the limits, which the
# application is told of otherwise.
BESIDES = session_rows.BESIDES | {
    "a section above the limit (4.2.2)": [(LOAD, "stream")],
    "HEADERS of 65537 bytes (4.2.2)": [(LOAD, "stream")],
    # (whose stream is forgotten once both halves are over)
    "one of a malformed request": [(MESSAGE, "stream"), (SESSION_GONE, "stream")],
    # (with which the own half is reset)
    "one that is reset in its head (6.1)": [(INCOMPLETE, "stream")],
}
# The own encoder stream is there only with a dynamic table of the peer: tools/event-rows.d has it.
# And a whole connection forgets no request that did not come.
LEFT_OUT = {
    "a stop of the encoder stream (6.2.1)",
    "a stream of a session whose request is 1000 places behind",
}
# What GOAWAY names: the other stream would not be processed.
ALONE = {"a GOAWAY of one (7.2.6)", "a session that goes on after a GOAWAY (5.2)"}


def tries(row):
    """Yields the sizes of the pieces of a row, and whether another stream is beside it."""
    return [one for one in connection_rows.tries(row) if not (one[1] and row.shows in ALONE)]


def rows():
    """Returns all rows that a whole connection can play."""
    return [row for row in session_rows.rows() if row.shows not in LEFT_OUT]


def line_of(line, is_client):
    """Returns a line of a row as wt_recorded reads it, or None where it needs none."""
    name, *words = line.split(" ")
    if name == "request":
        return f"request {words[0]} {section(*REQUESTS[''.join(words[1:])]).hex()}"
    if name in ("reset", "stop"):
        return f"{name} {words[0]} {CANCELLED}"
    if name == "stopped":
        own = {"control": 2 if is_client else 3, "decoder": 6 if is_client else 7, "message": 0}
        return f"stop {own[words[0]]} {CANCELLED}"
    if name == "forget":
        # (a request that is answered is over, and so forgotten)
        return f"answer {words[0]} 200"
    return None if name == "interims" else line


def script(row, size, with_neighbour):
    """Returns the script of a row, in pieces of this size, and beside another stream or alone."""
    before = [line_of(line, row.client) for line in row.before.splitlines()]
    opened = [line for line in before if line and line.startswith("request ")]
    others = [line for line in before if line and line not in opened]
    if "session" in row.before and opened and not any(one.startswith("bytes 3 ") for one in others):
        # (a session is asked for once SETTINGS came)
        opened.append(f"bytes 3 {OF_SERVER}")
    table = CAPACITY if "decoder stream (" in row.shows and "stop" in row.shows else 0
    lines = [f"{'client' if row.client else 'server'} {table}"]
    lines[0] += " nothing" if row.plain else ""
    lines += opened
    if with_neighbour:
        lines += [f"request {NEIGHBOUR} {section(*GET).hex()}"] if row.client else []
        first = RESPONSE if row.client else HEADERS
        lines.append(f"bytes {NEIGHBOUR} {first.hex()}0005")
    pieces = [row.data[at : at + size] for at in range(0, len(row.data), size)]
    lines += others + [f"bytes {row.stream} {piece.hex()}" for piece in pieces]
    lines += [f"end {row.stream}"] if row.end else []
    after = [line_of(line, row.client) for line in row.after.splitlines()]
    lines += [line for line in after if line]
    if with_neighbour:
        lines.append(f"end {NEIGHBOUR} {b'hello'.hex()}")
    return "\n".join(lines) + "\n"


def faults_in(found):
    """Returns the errors that a connection told: the code of each, and what it ends."""
    faults = []
    for _, stream, event in found:
        name, *codes = event
        if name == "over":
            faults.append((None, codes[0], "connection"))
        elif name in OUTPUTS and codes[0] != CANCELLED and codes[0] < FIRST_CODE:
            faults.append((stream, codes[0], "stream"))
        elif name in ("fault", "malformed"):
            faults.append((stream, codes[0] if codes else MESSAGE, "stream"))
    # (what ends a stream is told to the program, and twice to QUIC)
    return [fault[1:] for fault in dict.fromkeys(faults)]


def difference(row, lines, with_neighbour):
    """Returns what is wrong with the lines of a row."""
    found = whole_events_in(lines)
    wanted, shown = BESIDES.get(row.shows, row.faults()), faults_in(found)
    if shown != wanted:
        return f"wanted the errors {wanted}, found {shown}"
    is_over = any(scope == "connection" for _, scope in shown)
    ends = [event for _, stream, event in found if event[0] == "end" and stream == NEIGHBOUR]
    if with_neighbour and (len(ends) != 1) != is_over:
        return f"the other stream has the ends {ends}"
    return None
