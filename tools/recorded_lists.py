#!/usr/bin/env -S python3 -B
"""Lists of recorded connections, as `wt_inspect connection` reads them.

    tools/recorded_lists.py [DIR [FOLDER]]

Writes a list for each connection of DIR (default: tools/recordings.d), whose files have names as
`RUN-CONNECTION-WAY-STREAM.bin`, into FOLDER (default: the working directory): a line
`STREAM DIRECTION FILE` for each file, with the whole path of the file. A file whose stream the
other end opened is left out if what that end sent there was not recorded, since nothing says then
what it is.
"""

import sys
from pathlib import Path

from program_cases import TOP
from recorded_checks import recordings_in

ENDS = {"c2s": "client", "s2c": "server"}


class Entry:
    """A line of a list, by a line of the index: the recording, its stream, which is None for a
    datagram, and the end that sent it."""

    def __init__(self, recording):
        self.recording = recording
        name = recording.file.removesuffix(".bin")
        self.connection, way, place = name.rsplit("-", 2)
        self.sender = ENDS[way]
        self.stream = None if place.startswith("dgram") else int(place)

    def line(self, folder):
        """Returns the line of the list."""
        stream = "datagrams" if self.stream is None else self.stream
        return f"{stream} {self.sender} {(folder / self.recording.file).resolve()}\n"

    def is_opening(self):
        """Returns whether the end that sent it opened the stream."""
        return self.stream is None or not self.recording.kind.endswith("opened by the other end")


def connections_of(folder):
    """Returns the entries of each connection of a folder of recordings."""
    connections = {}
    for recording in recordings_in(folder):
        entry = Entry(recording)
        connections.setdefault(entry.connection, []).append(entry)
    return {name: known(entries) for name, entries in connections.items()}


def known(entries):
    """Returns the entries without those of which nothing says what they are."""
    opened = {entry.stream for entry in entries if entry.is_opening()}
    return [entry for entry in entries if entry.stream in opened]


def list_of(folder, entries):
    """Returns the list of a connection."""
    return "".join(entry.line(folder) for entry in entries)


def main():
    folder = Path(sys.argv[1]) if len(sys.argv) > 1 else TOP / "tools/recordings.d"
    target = Path(sys.argv[2]) if len(sys.argv) > 2 else Path()
    for name, entries in connections_of(folder).items():
        (target / f"{name}.list").write_text(list_of(folder, entries), encoding="utf-8")


if __name__ == "__main__":
    main()
