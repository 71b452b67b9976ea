"""The C library (c/include/wtransport.h) from Python, by ctypes: what a server writes, and codes.

WTRANSPORT names the library's file; by default it is the one that c/build made. What a server reads
is in connection.py.
"""
from __future__ import annotations

import os
from ctypes import Array, c_size_t, c_uint32, c_uint64, create_string_buffer
from pathlib import Path
from typing import Any, Callable, Iterable, Sequence

# c/python/wtransport_c.py, which is in PYTHONPATH
import wtransport_c as c

Fields = Sequence[tuple[bytes, bytes]]

BUILT = Path(__file__).resolve().parents[2] / "c/out/libwtransport.so"
library = c.load(os.environ.get("WTRANSPORT", str(BUILT)))


def check(answer: int) -> None:
    """Raises an exception for every answer of a call but OK."""
    if answer == c.MEMORY:
        raise MemoryError
    if answer != c.OK:
        raise ValueError(f"a call of the library returned {answer}")


def written(call: Callable[..., int], *arguments: Any, after: Sequence[Any] = ()) -> bytes:
    """The bytes that a call writes, which is made again if it needs more room. `after`: its
    arguments after these."""
    room, answer, used = 64, c.BUFFER_TOO_SMALL, c_size_t()
    while answer == c.BUFFER_TOO_SMALL:
        out = create_string_buffer(room)
        answer = call(*arguments, out, room, used, *after)
        room = used.value
    check(answer)
    return out.raw[: used.value]


# ---- Error codes ----


def code_name(code: int) -> str:
    """The name of an error code, or its number if the library has no name for it."""
    try:
        return written(library.wt_code_name, code).decode()
    except ValueError:
        return hex(code)


def to_http3(code: int) -> int:
    """The HTTP/3 error code of an application's error code."""
    return library.wt_application_code_to_http3(code)


def to_application(number: int) -> int | None:
    """The application's error code of an HTTP/3 error code, or None if it has none."""
    code = c_uint32()
    answer = library.wt_application_code_from_http3(number, code)
    return code.value if answer == c.OK else None


# ---- Numbers ----


def read_number(data: bytes) -> tuple[int, int] | None:
    """The number at the start of the bytes and the size of its encoding, or None if it is cut."""
    value, consumed = c_uint64(), c_size_t()
    answer = library.wt_varint_read(data, len(data), value, consumed)
    return (value.value, consumed.value) if answer == c.OK else None


def read_settings(payload: bytes) -> dict[int, int]:
    """The settings of a payload; of an unknown one that is repeated, the last value."""
    numbers, at = [], 0
    while found := read_number(payload[at:]):
        numbers.append(found[0])
        at += found[1]
    return dict(zip(numbers[::2], numbers[1::2]))


# ---- Streams, frames, datagrams ----


def write_stream_header(kind: int, session: int = 0) -> bytes:
    """The header of a unidirectional stream."""
    return written(library.wt_stream_header_write, c.StreamHeader(kind, session))


def write_session_frame(session: int) -> bytes:
    """The header of a session's bidirectional stream."""
    return written(library.wt_session_frame_write, session)


def write_datagram(session: int, payload: bytes) -> bytes:
    """The QUIC datagram of a session's payload."""
    return written(library.wt_datagram_write, session, payload, len(payload))


def write_frame(kind: int, payload: bytes) -> bytes:
    """A frame, such as one of a reserved type."""
    return written(library.wt_frame_write, kind, payload, len(payload))


def write_settings(settings: Iterable[tuple[int, int]]) -> bytes:
    """The SETTINGS frame of (identifier, value) pairs."""
    pairs = list(settings)
    array = (c.Setting * len(pairs))(*pairs)
    return write_frame(c.FRAME_SETTINGS, written(library.wt_settings_write, array, len(pairs)))


def array_of(pairs: Fields) -> tuple[Array, bytes]:
    """The fields as the library takes them, and their texts."""
    fields, texts = (c.Field * len(pairs))(), b""
    for field, (name, value) in zip(fields, pairs):
        at, texts = len(texts), texts + name + value
        field.name_offset, field.name_length = at, len(name)
        field.value_offset, field.value_length = at + len(name), len(value)
    return fields, texts


def write_close(code: int, reason: str) -> bytes:
    """The DATA frame with the capsule that closes a session."""
    text = reason.encode()
    return write_frame(c.FRAME_DATA, written(library.wt_close_write, code, text, len(text)))
