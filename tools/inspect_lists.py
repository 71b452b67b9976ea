#!/usr/bin/env -S python3 -B
"""Compares what wt_inspect shows of whole recorded connections with what the stacks that sent them
say.

    tools/inspect_lists.py [DIR]

DIR (default: tools/recordings.d) has the recordings and an index.tsv, from which comes what is
expected: of each stream and datagram the same as in tools/check-recordings, where it is shown, and
how each session went.
Each connection is read twice from its list (tools/recorded_lists.py): with --open, as if no stream
had ended, and without, as if all but the control streams and those of QPACK had. The program is
built once, without proof, or is the one named by the environment variable PROGRAM. Ends with a line
'N passed, M failed'.
"""

import json
import sys
from pathlib import Path

from outcomes import Outcomes
from program_cases import TOP, Case, run_cases
from recorded_checks import CLOSE, compare, compare_payload, wanted_capsules
from recorded_lists import connections_of, list_of
from session_summaries import DATAGRAMS, as_found, is_interim, is_summary, summaries_of
from session_summaries import Recording as RecordedBytes
from verdict_rows import NOTES

# The kinds of the index that last as long as the connection.
CRITICAL = ("control", "QPACK encoder", "QPACK decoder")
# What a line says of a stream, by the kind that the index has.
PURPOSES = {
    "session (CONNECT), opened by this sender": "request",
    "request, opened by this sender": "request",
    "response, opened by the other end": "response",
    "WebTransport stream, opened by this sender": "WebTransport",
    "WebTransport stream, opened by the other end": "WebTransport",
    "unidirectional: WebTransport": "WebTransport",
    "unidirectional: push": "push",
    "datagram": "datagram",
    **{f"unidirectional: {name}": name for name in CRITICAL},
}
# The answers of a test server of nghttp3 to requests for sessions: they accept, with text as
# content. As capsules (RFC 9297, section 3.2), the text begins one of 14970 bytes, 0x3a7a, of which
# 16 are there; and such an answer has no content-type.
WITH_TEXT = [f"nghttp3static-s2c-{stream}.bin" for stream in (0, 16, 20, 24)]
CUT = {"capsules": ["cut by 14954 bytes"]}
NO_TYPE = "a session's message has content-length or content-type (RFC 9297, section 3.2)"
GROUPS = ["control", "QPACK", "session", "request", "other"]


class Wanted:
    """What is expected of the pieces of a connection."""

    def __init__(self, folder, entries):
        self.folder, self.entries = folder, entries
        self.sessions = {
            entry.stream for entry in entries if entry.recording.kind.startswith("session")
        }
        self.named = {
            entry.stream: found[0]["WEBTRANSPORT"]
            for entry in entries
            if (found := entry.recording.found) and "WEBTRANSPORT" in found[0]
        }

    def purpose(self, entry):
        """Returns what a piece is for."""
        return PURPOSES.get(entry.recording.kind, "other")

    def group(self, entry):
        """Returns the group of a piece, and its ID, if it has one."""
        purpose, found = self.purpose(entry), entry.recording.found
        if purpose == "control":
            return "control", None
        if purpose.startswith("QPACK"):
            return "QPACK", None
        if purpose == "datagram":
            return "session", 4 * found[0]["quarter stream id"]
        if purpose == "WebTransport":
            is_uni = entry.recording.kind.startswith("unidirectional")
            return "session", found[0]["session"] if is_uni else self.named[entry.stream]
        if purpose in ("request", "response"):
            return "session" if entry.stream in self.sessions else "request", entry.stream
        return "other", None

    def place(self, entry, number):
        """Returns by what a piece has its place: its group, what it is there, its stream, its
        sender and its place in the list."""
        group, at = self.group(entry)
        role = {"request": 0, "response": 0, "datagram": 2}.get(self.purpose(entry), 1)
        return GROUPS.index(group), at or 0, role, entry.stream or 0, entry.sender, number

    def pieces(self):
        """Returns the entries in their order, each with the first members of its lines."""
        numbered = list(enumerate(self.entries))
        numbered.sort(key=lambda one: self.place(one[1], one[0]))
        for number, entry in numbered:
            name, value = ("on_stream", entry.stream)
            if entry.stream is None:
                name, value = ("datagram", number + 1)
            yield entry, {name: value, "from": entry.sender}

    def head(self, entry):
        """Returns the other members of the line before the items of a piece."""
        group, number = self.group(entry)
        file = str((self.folder / entry.recording.file).resolve())
        head = {"item": "part", "purpose": self.purpose(entry), "group": group}
        return {
            **head,
            **({} if number is None else {group: number}),
            "length": entry.recording.size,
            "file": file,
        }

    def summaries(self, is_open):
        """Returns how each session went: with the fields and the first close of the index, and the
        rest as an independent reader finds it."""
        by_message = {(entry.stream, entry.sender): entry.recording for entry in self.entries}
        found = summaries_of(RecordedBytes([self.bytes_of(one) for one in self.entries]), is_open)
        for summary in found:
            for end, said in summary.ends():
                recording = by_message[summary.session, end]
                said.fields = final_fields(recording.said)
                closes = (one[1:] for one in wanted_capsules(recording.found) if one[0] == CLOSE)
                said.close = next(closes, None)
        return [summary.shown() for summary in found]

    def bytes_of(self, entry):
        """Returns the stream of a piece, who sent it, and its bytes."""
        stream = DATAGRAMS if entry.stream is None else entry.stream
        return stream, entry.sender, (self.folder / entry.recording.file).read_bytes()

    def is_open(self, entry, is_open):
        """Returns whether more bytes may follow a piece."""
        return is_open or self.purpose(entry) in CRITICAL


def final_fields(said):
    """Returns the fields of the first header section that is not of an interim response, as the
    index has them, with one character for each byte."""
    heads = (thing["HEADERS"] for thing in said if "HEADERS" in thing)
    sections = ([encoded(line) for line in lines] for lines in heads)
    return next((fields for fields in sections if not is_interim(fields)), None)


def encoded(line):
    return [part.encode("latin-1") for part in line]


def split_by(items, origins):
    """Yields the items of each of these pieces, without the members that say which piece it is."""
    at = 0
    for origin in origins:
        found = []
        while at < len(items) and all(items[at].get(name) == origin[name] for name in origin):
            found.append({name: part for name, part in items[at].items() if name not in origin})
            at += 1
            if found[-1]["item"] == "end":
                break
        yield found
    yield items[at:]


def is_cut_short(recording):
    """Returns whether a recording ends before its stream does, so that what is missing of it is not
    wrong."""
    return recording.ended != "fin"


def without_type_warning(items):
    """Returns the items without the warning of the answers with text, which they have."""
    found = [item for item in items if item.get("why") != NO_TYPE]
    return found if len(found) == len(items) - 1 else []


def piece_fault(wanted, entry, items, is_open):
    """Returns what is wrong with the lines of a piece."""
    recording = entry.recording
    if not items or items[0] != wanted.head(entry):
        return f"the first line is {items[:1]}, and not {wanted.head(entry)}"
    content = (wanted.folder / recording.file).read_bytes()
    if recording.is_payload():
        size = len(content)
        whole = [{"at": 0, "length": size, "item": "payload"}] if size else []
        whole.append({"at": size, "item": "end", "state": "whole"})
        fault = compare_payload(recording, content)
        return fault or (None if items[1:] == whole else f"lines: {items[1:]}")
    is_ended = not wanted.is_open(entry, is_open)
    items = items[1:]
    if recording.file in WITH_TEXT:
        recording.found.append(CUT)
        if not any(item.get("missing") == 14954 or is_ended for item in items):
            return f"the end is {items[-1:]}"
        items = without_type_warning(items)
    if is_ended and is_cut_short(recording):
        items = [item for item in items if item["item"] != "warning"]
    recording.ended = "fin" if is_ended and recording.kind != "datagram" else "open"
    return compare(recording, content, items, recording.wanted_end()[1])


def connection_faults(wanted, case, is_open):
    """Yields the name of each piece and what is wrong with it, and then of the whole."""
    items = [json.loads(line) for line in case.output.splitlines()]
    # (tools/inspect_verdicts.py compares these)
    verdicts = [item["verdict"] for item in items if "verdict" in item]
    sessions = [as_found(item) for item in items if is_summary(item)]
    summaries = wanted.summaries(is_open)
    fault = None if sessions == summaries else f"wanted {summaries}, found {sessions}"
    yield "sessions", fault
    items = [item for item in items if "item" in item]
    pieces = list(wanted.pieces())
    *found, rest = split_by(items, [origin for _, origin in pieces])
    status = 0 if NOTES.issuperset(verdicts) else 2
    for (entry, _), lines in zip(pieces, found, strict=True):
        ended = entry.recording.ended
        yield entry.recording.file, piece_fault(wanted, entry, lines, is_open)
        status = max(status, entry.recording.wanted_end()[1])
        entry.recording.ended = ended
    fault = None
    if rest or case.errors or case.status != status:
        fault = f"status {case.status} and {case.errors}, where {status} was wanted; and {rest}"
    yield "as a whole", fault


def main():
    folder = Path(sys.argv[1]) if len(sys.argv) > 1 else TOP / "tools/recordings.d"
    connections = connections_of(folder)
    cases = {}
    for name, entries in connections.items():
        content = list_of(folder, entries).encode()
        for way, options in (("open", ["--open"]), ("ended", [])):
            arguments = ["connection", "--json", *options]
            cases[name, way] = Case(f"{name}-{way}", content, arguments)
    run_cases("wt_inspect", list(cases.values()))
    outcomes = Outcomes("piece")
    for (name, way), case in cases.items():
        wanted = Wanted(folder, connections[name])
        for piece, fault in connection_faults(wanted, case, way == "open"):
            outcomes.add(f"{name} ({way}) {piece}", fault)
    return outcomes.end()


if __name__ == "__main__":
    sys.exit(main())
