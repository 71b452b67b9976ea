"""Tests the shared library from Python, by ctypes.

    c/python/test.py FOLDER [RECORDINGS]

FOLDER is that of the library. RECORDINGS is a folder with an index.tsv: what is in it is read, and
compared with the index. The declarations of wtransport_c.py are compared with the header, and the
version of the header with those of the library, its files and the file VERSION. Ends with
'N passed, M failed'.
"""
import json
import re
import subprocess
import sys
from ctypes import c_size_t, c_uint16, c_uint64, create_string_buffer
from pathlib import Path

import wtransport_c as c
from wtransport_c import ERROR, INVALID, MORE, OK

TOP = Path(__file__).resolve().parents[2]
FOLDER = Path(sys.argv[1])
lib = c.load(str(FOLDER / "libwtransport.so"))


class Checks:
    """Counts the comparisons that passed and that failed."""

    def __init__(self):
        self.passed = self.failed = 0

    def same(self, what, got, wanted):
        if got == wanted:
            self.passed += 1
        else:
            self.failed += 1
            print(f"{what}: {got!r} and not {wanted!r}")


checks = Checks()


# ---- The calls ----


def stream_header(data):
    consumed, header, code = c_size_t(), c.StreamHeader(), c_uint64()
    answer = lib.wt_stream_header_read(data, len(data), consumed, header, code)
    return answer, consumed.value, header.type, header.session, code.value


def frames(kind, data, step):
    """Returns the frames of a stream that comes in pieces of `step` bytes, the bytes left over, and
    the code of a fault."""
    reader, consumed, frame, code = c.Reader(), c_size_t(), c.Frame(), c_uint64()
    assert lib.wt_reader_new(kind, reader) == OK
    found, held, at = [], b"", 0
    while True:
        answer = lib.wt_read_frame(reader, held, len(held), consumed, frame, code)
        if answer == ERROR:
            return found, held, code.value
        if answer == OK:
            end = frame.offset + frame.length
            assert end == consumed.value <= len(held)
            found.append((frame.type, frame.session, held[frame.offset : end]))
        held = held[consumed.value :]
        if answer == MORE:
            assert len(held) <= c.MAX_FRAME_REST
            if at == len(data):
                return found, held, None
            held += data[at : at + step]
            at = min(at + step, len(data))
        if found and found[-1][0] == c.FRAME_WEBTRANSPORT:
            return found, held + data[at:], None


def closes(pieces):
    """Returns the values of the capsules that close a session, in data that comes in these pieces,
    and the code of a fault."""
    reader, consumed, capsule, code = c.CapsuleReader(), c_size_t(), c.Capsule(), c_uint64()
    found, held, coming = [], b"", iter(pieces)
    while True:
        answer = lib.wt_capsule_read(reader, held, len(held), consumed, capsule, code)
        if answer == ERROR:
            return found, code.value
        if answer == OK:
            found.append(held[capsule.offset :][: capsule.length])
        held = held[consumed.value :]
        if answer == MORE:
            assert len(held) <= c.MAX_CAPSULE_REST
            if (piece := next(coming, None)) is None:
                answer = lib.wt_capsule_end(reader, held, len(held), code)
                return found, code.value if answer == ERROR else None
            held += piece


def lines(section):
    """Returns OK and the lines of a field section, or another answer and its code."""
    fields, texts = (c.Field * 256)(), create_string_buffer(65536)
    count, used, code = c_size_t(), c_size_t(), c_uint64()
    answer = lib.wt_fields_read(
        section, len(section), fields, len(fields), texts, len(texts), count, used, code
    )
    if answer != OK:
        return answer, code.value
    text = texts.raw[: used.value]
    return OK, [
        [
            text[field.name_offset :][: field.name_length],
            text[field.value_offset :][: field.value_length],
        ]
        for field in fields[: count.value]
    ]


def settings(payload):
    """Returns OK and the settings of a payload, or another answer and its code."""
    array, count, code = (c.Setting * 64)(), c_size_t(), c_uint64()
    answer = lib.wt_settings_read(payload, len(payload), array, len(array), count, code)
    if answer != OK:
        return answer, code.value
    return OK, [(setting.id, setting.value) for setting in array[: count.value]]


# ---- Recordings ----

# What the index calls the frames that the library reads. It skips those of other types.
NAMES = {c.FRAME_DATA: "DATA", c.FRAME_HEADERS: "HEADERS", c.FRAME_SETTINGS: "SETTINGS"}


def is_text(data, text):
    """Returns whether bytes are those of a text of the index, in which some stacks have a character
    for each byte."""
    return data == text.encode() or data == text.encode("latin-1", "replace")


def are_pairs(read, pairs):
    """Returns whether lines are those of the index."""
    return len(read) == len(pairs) and all(
        is_text(name, pair[0]) and is_text(value, pair[1])
        for (name, value), pair in zip(read, pairs)
    )


def sizes(index):
    """Returns the frames of the index that are not skipped, as (name, size)."""
    found = [next(iter(item.items())) for item in index]
    return [
        (name.split()[0], size)
        for name, size in found
        if name in NAMES.values() or name.startswith("reserved")
    ]


def check_stream(name, data, kind, said, index):
    """Checks the frames of a recorded stream. Returns them."""
    expected, fault = sizes(index), None
    large = [at for at, (_, size) in enumerate(expected) if size > c.MAX_FRAME_PAYLOAD]
    if large:
        expected, fault = expected[: large[0]], c.H3_EXCESSIVE_LOAD
    for step in (1, 7, 4096, max(1, len(data))):
        found, _, code = frames(kind, data, step)
        checks.same(f"{name} by {step}: fault", code, fault)
        read = [
            (NAMES.get(frame, "reserved"), len(payload))
            for frame, _, payload in found
            if frame != c.FRAME_WEBTRANSPORT
        ]
        checks.same(f"{name} by {step}", read, expected)
    wanted = [item["HEADERS"] for item in said if isinstance(item.get("HEADERS"), list)]
    sections = [payload for frame, _, payload in found if frame == c.FRAME_HEADERS]
    for section, pairs in zip(sections, wanted):
        answer, read = lines(section)
        if answer == ERROR:  # it needs the dynamic table
            checks.same(f"{name}: code", read, c.QPACK_DECOMPRESSION_FAILED)
        else:
            checks.same(f"{name}: fields {pairs}", are_pairs(read, pairs), True)
    return found


def cuts(payloads):
    """Yields the data of these payloads: in these, byte by byte, and cut in two at each place."""
    data = b"".join(payloads)
    yield payloads
    yield [data[at : at + 1] for at in range(len(data))]
    for at in range(len(data) + 1):
        yield [data[:at], data[at:]]


def check_capsules(name, payloads, index):
    """Checks the capsules in the payloads of a session's DATA frames."""
    for item in index:
        if "capsules" not in item:
            continue
        is_cut = any(isinstance(capsule, str) for capsule in item["capsules"])
        wanted = [
            capsule[1:]
            for capsule in item["capsules"]
            if capsule[0] == "CLOSE_WEBTRANSPORT_SESSION"
        ]
        for pieces in cuts(payloads):
            shows = f"{name}: capsules of {[len(piece) for piece in pieces]}"
            found, code = closes(pieces)
            checks.same(f"{shows}: code", code, c.H3_MESSAGE_ERROR if is_cut else None)
            checks.same(shows, len(found), len(wanted))
            for value, (number, reason) in zip(found, wanted):
                read = int.from_bytes(value[:4], "big"), is_text(value[4:], reason)
                checks.same(shows, read, (number, True))


def check_datagram(name, data, index):
    session, offset, code = c_uint64(), c_size_t(), c_uint64()
    checks.same(name, lib.wt_datagram_read(data, len(data), session, offset, code), OK)
    read = session.value // 4, len(data) - offset.value
    checks.same(name, read, (index[0]["quarter stream id"], index[0]["bytes"]))


def check_one_way(name, data, said, index):
    """Checks a unidirectional stream: its header, and the frames of a control stream."""
    answer, consumed, number, session, code = stream_header(data)
    what = index[0]["stream"]
    if what == "push" or what.startswith("unknown"):
        checks.same(name, (answer, code), (ERROR, c.H3_STREAM_CREATION_ERROR))
    else:
        checks.same(name, answer, OK)
    if what == "WebTransport":
        wanted = c.STREAM_WEBTRANSPORT, index[0]["session"], index[0]["bytes"]
        checks.same(name, (number, session, len(data) - consumed), wanted)
    if what == "control":
        found = check_stream(name, data[consumed:], c.READ_CONTROL, said, index[1:])
        wanted = [(int(number, 16), value) for number, value in index[1]["is"]]
        checks.same(name, settings(found[0][2]), (OK, wanted))


def check_session_stream(name, data, index):
    """Checks a bidirectional stream of a session: after its first frame come no others."""
    found, held, code = frames(c.READ_BI_REMOTE, data, 1)
    frame, session, _ = found[0]
    wanted = index[0]["WEBTRANSPORT"], index[0]["application bytes"], None
    checks.same(name, frame, c.FRAME_WEBTRANSPORT)
    checks.same(name, (session, len(held), code), wanted)


def check_recording(folder, row):
    """Checks a recording, by its row of the index."""
    name, _, _, _, kind, _, _, said, index = row
    data = (folder / name).read_bytes()
    said, index = json.loads(said or "[]"), json.loads(index or "[]")
    if kind == "datagram":
        check_datagram(name, data, index)
    elif kind.startswith("unidirectional"):
        check_one_way(name, data, said, index)
    elif kind.startswith("WebTransport stream, opened by this"):
        check_session_stream(name, data, index)
    elif kind.startswith(("session", "request")):
        found = check_stream(name, data, c.READ_BI_REMOTE, said, index)
        payloads = [payload for frame, _, payload in found if frame == c.FRAME_DATA]
        check_capsules(name, payloads, index)
    elif kind.startswith("response"):
        check_stream(name, data, c.READ_BI_LOCAL, said, index)


# ---- By hand, and declarations ----


def by_hand():
    value, consumed = c_uint64(), c_size_t()
    answer = lib.wt_varint_read(b"\x7b\xbd", 2, value, consumed)
    checks.same("number", (answer, value.value), (OK, 15293))
    checks.same("no bytes", lib.wt_varint_read(None, 0, value, consumed), MORE)
    wanted = OK, 3, c.STREAM_WEBTRANSPORT, 4, 0
    checks.same("stream header", stream_header(b"\x40\x54\x04"), wanted)
    read = frames(c.READ_BI_REMOTE, b"\x02\x01x\x00\x03abc", 3)
    checks.same("frames", read, ([(c.FRAME_DATA, 0, b"abc")], b"", None))
    out, used = create_string_buffer(64), c_size_t()
    answer = lib.wt_code_name(c.H3_REQUEST_CANCELLED, out, len(out), used)
    checks.same("code", (answer, out.raw[: used.value]), (OK, b"H3_REQUEST_CANCELLED"))
    checks.same("scope", lib.wt_code_scope(c.H3_REQUEST_CANCELLED), c.SCOPE_STREAM)
    checks.same("no code", lib.wt_code_name(0x21, out, len(out), used), INVALID)
    status, code = c_uint16(), c_uint64()
    # :status 200 as static entry 25, and a field whose value is not UTF-8
    latin = b"\x00\x00\xd9\x21x\x01\xe9"
    answer = lib.wt_response_read(latin, len(latin), status, code)
    checks.same("response", (answer, status.value), (OK, 200))
    wanted = [(0x0D, 0), (c.SETTING_H3_DATAGRAM, 1), (0x0D, 5)]
    checks.same("settings", settings(b"\x0d\x00\x33\x01\x0d\x05"), (OK, wanted))
    checks.same("fields", lines(b"\x00\x00\xd1"), (OK, [[b":method", b"GET"]]))


def connection():
    """A request at a server, and a datagram: the events of a connection."""
    endpoint = c.Endpoint(c.SIDE_SERVER, 1, 1, 1, 65536, 4096, 1200)
    server, stream, event = c.Connection(), c.Stream(), c.Event()
    checks.same("connection", lib.wt_connection_new(c.ABI, endpoint, server), OK)
    checks.same("stream", lib.wt_stream_accept(server, 0, stream), OK)
    data = b"\x01\x08\x00\x00\xd1\xd7\xc1\x50\x01a"
    fields, out = (c.Field * 8)(), create_string_buffer(99)
    came = []
    for _ in range(3):
        held, table = (None, 0), (None, 0)
        lib.wt_receive(server, stream, *held, *table, data, len(data), 1, event, fields, 8, out, 99)
        data = data[event.consumed :]
        came.append((event.kind, event.fields))
    checks.same("events", came, [(c.EVENT_OPENED, 0), (c.EVENT_HEADERS, 4), (c.EVENT_END, 0)])
    checks.same("texts", out.raw[:14], b":methodGET:sch")
    checks.same("datagram", lib.wt_datagram_receive(server, b"\x01ab", 3, event), OK)
    checks.same("session", (event.kind, event.number, event.length), (c.EVENT_DATAGRAM, 4, 2))


def pushed():
    """The same request byte by byte, the settings of the peer, GOAWAY and a budget."""
    endpoint = c.Endpoint(c.SIDE_SERVER, 1, 1, 1, 65536, 4096, 1200)
    server, stream, event, hold = c.Connection(), c.Stream(), c.Event(), c.Hold()
    lib.wt_connection_new(c.ABI, endpoint, server)
    lib.wt_stream_accept(server, 0, stream)
    fields, out, room = (c.Field * 8)(), create_string_buffer(99), create_string_buffer(99)
    came = []
    for byte in b"\x01\x08\x00\x00\xd1\xd7\xc1\x50\x01a":
        chunk = bytes([byte])
        while True:
            memory, beside = (None, 0, None, 0, hold, room, 99), (event, fields, 8, out, 99)
            answer = lib.wt_receive_pushed(server, stream, *memory, chunk, len(chunk), 0, *beside)
            checks.same("pushed", answer, OK)
            chunk = chunk[hold.taken :]
            if event.kind == c.EVENT_MORE:
                break
            came.append((event.kind, event.fields))
    checks.same("events pushed", came, [(c.EVENT_OPENED, 0), (c.EVENT_HEADERS, 4)])
    peer = c.PeerSettings()
    checks.same("settings of the peer", lib.wt_connection_settings(server, peer), OK)
    checks.same("no limit", (peer.max_field_section_size, peer.came), (2**64 - 1, 0))
    checks.same("resuming", lib.wt_connection_resuming(c.ABI, endpoint, peer, server), OK)
    checks.same("refused", lib.wt_early_data_refused(server), OK)
    last, used, code = c_uint64(c.NO_GOAWAY), c_size_t(), c_uint64()
    answer = lib.wt_goaway_write(c.SIDE_SERVER, 4, last, out, 99, used)
    checks.same("goaway", (answer, out.raw[: used.value], last.value), (OK, b"\x07\x01\x04", 4))
    budget = c.RequestBudget(0, 0, 0)
    checks.same("answered", lib.wt_request_answered(budget), OK)
    checks.same("reset", lib.wt_request_reset(budget, code), OK)
    checks.same("too many", lib.wt_request_reset(budget, code), c.ERROR)
    checks.same("code", code.value, c.H3_EXCESSIVE_LOAD)


def declarations(header):
    """Checks the constants, the structs and the calls of wtransport_c.py by those of the header."""
    constants = re.findall(r"\bWT_(\w+) = (-?\w+)", header)
    constants += re.findall(r"#define WT_(\w+) +UINT64_C\((\w+)\)", header)
    for name, number in constants:
        checks.same(f"WT_{name}", getattr(c, name, None), int(number, 0))
    structs = re.findall(r"typedef struct (\w+) {(.*?)} \1;", header, re.DOTALL)
    checks.same("structs", sorted(name for name, _ in structs), sorted(c.STRUCTS))
    for name, body in structs:
        body = re.sub(r"/\*.*?\*/|\b(uint\d+_t|size_t)\b", "", body, flags=re.DOTALL)
        fields = [field for field, _ in c.STRUCTS[name]._fields_]
        checks.same(name, fields, re.findall(r"\w+", re.sub(r"\[\d+\]", "", body)))
    calls = re.findall(r"^(?:int|size_t|uint\d+_t) (wt_\w+)\((.*?)\);", header, re.DOTALL | re.M)
    checks.same("calls", sorted(name for name, _ in calls), sorted(c.ARGUMENTS))
    for name, arguments in calls:
        count = 0 if arguments == "void" else len(arguments.split(","))
        checks.same(f"arguments of {name}", len(c.ARGUMENTS[name]), count)


def version(header):
    """Checks the versions of the header, the library and its files by the file VERSION."""
    text = (TOP / "VERSION").read_text(encoding="utf-8").strip()
    number = int.from_bytes(map(int, text.split(".")), "big")
    found = dict(re.findall(r"#define WT_(VERSION\w*) (\S+)", header))
    checks.same("WT_VERSION", found["VERSION"], f'"{text}"')
    checks.same("WT_VERSION_NUMBER", int(found["VERSION_NUMBER"], 0), number)
    checks.same("wt_version", lib.wt_version(), number)
    described = (FOLDER / "wtransport-uninstalled.pc").read_text(encoding="utf-8")
    checks.same("pkg-config", re.findall(r"^Version: (.*)$", described, re.M), [text])
    file = FOLDER / f"libwtransport.so.{text}"
    soname = f"libwtransport.so.{text.split('.')[0]}"
    checks.same("file", (FOLDER / "libwtransport.so").resolve(), file.resolve())
    checks.same("file of the soname", (FOLDER / soname).resolve(), file.resolve())
    dynamic = subprocess.run(["objdump", "-p", file], capture_output=True, text=True, check=True)
    checks.same("soname", re.findall(r"SONAME +(\S+)", dynamic.stdout), [soname])


def main():
    parts = ["wtransport.h", "wtransport_connection.h", "wtransport_sending.h"]
    header = "".join((TOP / "c/include" / part).read_text(encoding="utf-8") for part in parts)
    by_hand()
    connection()
    pushed()
    declarations(header)
    version(header)
    if len(sys.argv) > 2:
        folder = Path(sys.argv[2])
        for line in (folder / "index.tsv").read_text(encoding="utf-8").split("\n")[1:]:
            if line:
                check_recording(folder, line.split("\t"))
    print(f"{checks.passed} passed, {checks.failed} failed")
    return 1 if checks.failed or not checks.passed else 0


sys.exit(main())
