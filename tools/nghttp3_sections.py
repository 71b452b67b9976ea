"""Field sections without a dynamic table, read and written by nghttp3 (Debian's libnghttp3-dev),
which shares no code with the programs."""

import ctypes
import functools


class Buffer(ctypes.Structure):
    _fields_ = [("base", ctypes.POINTER(ctypes.c_uint8)), ("len", ctypes.c_size_t)]


class Line(ctypes.Structure):
    _fields_ = [
        ("name", ctypes.c_void_p),
        ("value", ctypes.c_void_p),
        ("token", ctypes.c_int32),
        ("flags", ctypes.c_uint8),
    ]


class Pair(ctypes.Structure):
    _fields_ = [
        ("name", ctypes.c_char_p),
        ("value", ctypes.c_char_p),
        ("name_len", ctypes.c_size_t),
        ("value_len", ctypes.c_size_t),
        ("flags", ctypes.c_uint8),
    ]


class Room(ctypes.Structure):
    _fields_ = [(name, ctypes.c_void_p) for name in ("begin", "end", "pos", "last")]

    def content(self):
        """Returns the bytes that were written."""
        count = (self.last or 0) - (self.pos or 0)
        return ctypes.string_at(self.pos, count) if count else b""


# What nghttp3_qpack_decoder_read_request says of what it read.
EMIT, FINAL = 1, 2
# What nghttp3_qpack_encoder_encode is told of a field.
NEVER_INDEX = 1


@functools.cache
def library():
    """Returns the library."""
    try:
        lib = ctypes.CDLL("libnghttp3.so")
    except OSError as fault:
        raise SystemExit(f"{fault}: install libnghttp3-dev, as c/install-tools does") from fault
    pointer = ctypes.c_void_p
    lib.nghttp3_mem_default.restype = pointer
    lib.nghttp3_qpack_decoder_new.argtypes = [pointer, ctypes.c_size_t, ctypes.c_size_t, pointer]
    lib.nghttp3_qpack_stream_context_new.argtypes = [pointer, ctypes.c_int64, pointer]
    lib.nghttp3_qpack_decoder_read_request.restype = ctypes.c_ssize_t
    lib.nghttp3_qpack_decoder_read_request.argtypes = [
        *(pointer, pointer, pointer, pointer),
        *(ctypes.c_char_p, ctypes.c_size_t, ctypes.c_int),
    ]
    lib.nghttp3_qpack_encoder_new.argtypes = [pointer, ctypes.c_size_t, pointer]
    lib.nghttp3_qpack_encoder_encode.argtypes = [
        *(pointer, pointer, pointer, pointer),
        *(ctypes.c_int64, pointer, ctypes.c_size_t),
    ]
    lib.nghttp3_buf_free.argtypes = [pointer, pointer]
    lib.nghttp3_rcbuf_get_buf.restype = Buffer
    lib.nghttp3_rcbuf_get_buf.argtypes = [pointer]
    lib.nghttp3_rcbuf_decref.argtypes = [pointer]
    for name in ("decoder_del", "encoder_del", "stream_context_del"):
        getattr(lib, f"nghttp3_qpack_{name}").argtypes = [pointer]
    return lib


def taken(buffer):
    """Returns the bytes of a buffer, which is given back."""
    lib = library()
    content = lib.nghttp3_rcbuf_get_buf(buffer)
    copied = ctypes.string_at(content.base, content.len) if content.len else b""
    lib.nghttp3_rcbuf_decref(buffer)
    return copied


@functools.lru_cache(maxsize=100_000)
def fields_of(section):
    """Returns the fields of an encoded section, or None if it cannot be decoded."""
    lib = library()
    memory = lib.nghttp3_mem_default()
    decoder, context = ctypes.c_void_p(), ctypes.c_void_p()
    lib.nghttp3_qpack_decoder_new(ctypes.byref(decoder), 0, 0, memory)
    lib.nghttp3_qpack_stream_context_new(ctypes.byref(context), 0, memory)
    fields = read_lines(decoder, context, section)
    lib.nghttp3_qpack_stream_context_del(context)
    lib.nghttp3_qpack_decoder_del(decoder)
    return fields


def read_lines(decoder, context, section):
    """Returns the lines of a section, or None."""
    lib, fields, at = library(), [], 0
    line, flags = Line(), ctypes.c_uint8()
    while True:
        rest = section[at:]
        count = lib.nghttp3_qpack_decoder_read_request(
            decoder, context, ctypes.byref(line), ctypes.byref(flags), rest, len(rest), 1
        )
        if count < 0:
            return None
        at += count
        if flags.value & EMIT:
            fields.append((taken(line.name), taken(line.value)))
        if flags.value & FINAL:
            return fields
        if count == 0 and not flags.value & EMIT:
            return None


def section_of(fields, is_never):
    """Returns the section of fields, of which it is told which are never indexed."""
    lib = library()
    memory = lib.nghttp3_mem_default()
    encoder, rooms = ctypes.c_void_p(), [Room() for _ in range(3)]
    pairs = (Pair * len(fields))(
        *(
            Pair(name, value, len(name), len(value), NEVER_INDEX if is_never(name, value) else 0)
            for name, value in fields
        )
    )
    lib.nghttp3_qpack_encoder_new(ctypes.byref(encoder), 0, memory)
    places = [ctypes.byref(room) for room in rooms]
    fault = lib.nghttp3_qpack_encoder_encode(encoder, *places, 0, pairs, len(fields))
    prefix, lines, instructions = (room.content() for room in rooms)
    for place in places:
        lib.nghttp3_buf_free(place, memory)
    lib.nghttp3_qpack_encoder_del(encoder)
    if fault or instructions:
        raise SystemExit(f"nghttp3 answers {fault}, with {len(instructions)} bytes of instructions")
    return prefix + lines
