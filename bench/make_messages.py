#!/usr/bin/env python3
"""Writes recorded messages into the folder that is named: requests, responses and requests for
sessions, each with the control stream of its connection before it.

A file has what the fields and the content of its messages come to, by what the stacks say of them,
in four bytes, lowest first; then the control stream and each message, after its length in two
bytes, highest first. The messages are those of tools/recordings.d, again and again up to a number
of messages."""
import json
import os
import struct
import sys
from pathlib import Path

RECORDINGS = Path(__file__).resolve().parent.parent / "tools/recordings.d"
MESSAGES = 64
# The file, the control stream, the messages, and whether their content counts.
FILES = [
    ("chromium", "chr07-2-c2s-2.bin", ["chr07-2-c2s-0.bin"], True),
    (
        "requests",
        "chr07-2-c2s-2.bin",
        ["chr07-2-c2s-0.bin", "curl-0-c2s-0.bin", "nghttp3static-c2s-4.bin", "nginx-c2s-0.bin"],
        True,
    ),
    (
        "responses",
        "chr07-0-s2c-3.bin",
        ["chr07-2-s2c-0.bin", "chr07-2-s2c-12.bin", "nginx-s2c-0.bin", "nghttp3static-s2c-8.bin"],
        True,
    ),
    ("sessions", "chr07-0-c2s-2.bin", ["chr07-0-c2s-0.bin", "chr07-1-c2s-0.bin"], False),
]


def said_by_the_stacks():
    """Returns what the stacks say of each recording: its frames."""
    with open(RECORDINGS / "index.tsv", encoding="utf-8") as index:
        lines = [line.rstrip("\n").split("\t") for line in index]
    column = lines[0].index("said by the stacks")
    return {line[0]: json.loads(line[column]) for line in lines[1:]}


def size_of(frames, with_content):
    """Returns the size of the field lists (RFC 9114, section 4.2.2), and of the content."""
    size = 0
    for frame in frames:
        for name, value in frame.get("HEADERS", []):
            size += 32 + len(name) + len(value)
        size += with_content * frame.get("DATA", 0)
    return size


def main():
    said = said_by_the_stacks()
    for name, control, recordings, with_content in FILES:
        messages = [recordings[n % len(recordings)] for n in range(MESSAGES)]
        size = sum(size_of(said[message], with_content) for message in messages)
        with open(os.path.join(sys.argv[1], f"{name}.bin"), "wb") as out:
            out.write(struct.pack("<I", size))
            for recording in (control, *messages):
                content = (RECORDINGS / recording).read_bytes()
                out.write(struct.pack(">H", len(content)) + content)


main()
