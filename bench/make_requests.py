#!/usr/bin/env python3
"""Writes the pairs of the requests of one connection into the folder that is named, the same at
each run: 64 requests of 20 fields, of which eight have another value in each, and the others have
the one of pairs-20-fields.bin."""
import os
import random
import struct
import sys

REQUESTS = 64
CHANGING = [
    b":path",
    b"cookie",
    b"referer",
    b"if-none-match",
    b"x-request-id",
    b"sec-fetch-dest",
    b"accept",
    b"priority",
]


def pairs_in(content):
    """Returns the pairs of a file."""
    (count,), at, pairs = struct.unpack("<I", content[:4]), 4, []
    for _ in range(count):
        name, value = struct.unpack("<II", content[at : at + 8])
        at += 8
        pairs.append((content[at : at + name], content[at + name : at + name + value]))
        at += name + value
    return pairs


def main():
    folder, rng = sys.argv[1], random.Random(9204)
    with open(os.path.join(folder, "pairs-20-fields.bin"), "rb") as file:
        pairs = pairs_in(file.read())
    out = struct.pack("<I", REQUESTS * len(pairs))
    for _ in range(REQUESTS):
        for name, value in pairs:
            if name in CHANGING:
                value = value[:4] + bytes(rng.choice(b"abcdefghij0123456789-/") for _ in range(24))
            out += struct.pack("<II", len(name), len(value)) + name + value
    with open(os.path.join(folder, "pairs-connection.bin"), "wb") as file:
        file.write(out)


main()
