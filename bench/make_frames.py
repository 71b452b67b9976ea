#!/usr/bin/env python3
"""Writes inputs into the folder that is named, the same at each run: two recordings of small
frames, 1 MiB each; requests whose content is in frames of one size; and requests for many
streams."""
import os
import random
import struct
import sys


def varint(value):
    for size, mark in ((1, 0), (2, 1), (4, 2), (8, 3)):
        if value < 1 << (8 * size - 2):
            return (value | mark << (8 * size - 2)).to_bytes(size, "big")


def frames(total, sizes, seed):
    """Frames that fill total bytes: seven of ten DATA, the others of exercise kinds; the last fills
    what is left."""
    rng = random.Random(seed)
    parts, size = [], 0
    while True:
        kind = 0 if rng.random() < 0.7 else 0x21 + 0x1F * rng.choice([0, 1, 2, 3, 50, 10**4])
        payload = bytes(rng.randrange(256) for _ in range(rng.choice(sizes)))
        frame = varint(kind) + varint(len(payload)) + payload
        if size + len(frame) > total - 66:
            break
        parts.append(frame)
        size += len(frame)
    left = total - size
    payload = bytes(left - (2 if left <= 65 else 3))
    parts.append(varint(0) + varint(len(payload)) + payload)
    return b"".join(parts)


for name, sizes in (("frames-1MiB.bin", range(0, 41)), ("frames-tiny-1MiB.bin", range(0, 4))):
    with open(os.path.join(sys.argv[1], name), "wb") as out:
        out.write(frames(1 << 20, sizes, 424242))

# A POST to https://a/ (RFC 9204, appendix A), and the size of its fields (RFC 9114, section 4.2.2).
HEADERS = varint(1) + varint(8) + b"\0\0\xd4\xd7\x50\x01a\xc1"
FIELDS = 4 * 32 + len(":methodPOST:schemehttps:authoritya:path/")


def data(size):
    return varint(0) + varint(size) + bytes(size)


# 1 MiB in frames of three sizes, and 1,024 frames of three sizes.
for size, count in ((16, 65536), (1024, 1024), (1 << 20, 1), (16, 1024), (16384, 1024)):
    with open(os.path.join(sys.argv[1], f"request-{size}x{count}.bin"), "wb") as out:
        out.write(HEADERS + data(size) * count)

# What all fields and the content of the streams come to, how many streams, and the bytes of each.
for count in (10, 1000, 10000):
    with open(os.path.join(sys.argv[1], f"streams-{count}.bin"), "wb") as out:
        out.write(struct.pack("<II", count * (FIELDS + 1024), count) + HEADERS + data(1024))
