"""Unit tests of tools/capture_reader.py and tools/captured_streams.py, by frames that no capture in
captures.d has."""

import io
import json
import unittest

from capture_reader import Datagram, Packet, Tree, packet_of, trees_in
from captured_streams import Connection, Sending, acknowledged, close_words, merged, without

CLIENT, SERVER, MOVED = ("10.0.0.1", 1000), ("10.0.0.2", 443), ("10.0.0.3", 2000)
SPACE = "Application"


def tree(*pairs):
    return Tree(pairs)


def stream(number, at, data, fin=False):
    """A STREAM frame as tshark shows it."""
    return tree(
        ("quic.frame_type", hex(0x0E | fin)),
        ("quic.stream.stream_id", str(number)),
        ("quic.stream.offset", str(at)),
        ("quic.stream.length", str(len(data))),
        ("quic.stream_data", data.hex(":")),
    )


def ack(largest, first, *more):
    """An ACK frame: after the first range, a gap and a length for each."""
    pairs = [("quic.ack.gap", "quic.ack.ack_range")[at % 2] for at in range(len(more))]
    return tree(
        ("quic.frame_type", "2"),
        ("quic.ack.largest_acknowledged", str(largest)),
        ("quic.ack.first_ack_range", str(first)),
        *zip(pairs, map(str, more)),
    )


class PacketsTest(unittest.TestCase):
    """A connection with a client and a server, to which packets are added."""

    def setUp(self):
        self.connection, self.frame = Connection(0), 0

    def add(self, number, *frames, source=CLIENT, destination=SERVER, **options):
        self.frame += 1
        packets = [Packet(SPACE, number, list(frames))]
        self.connection.add(
            Datagram(self.frame, source, destination, b"@", True, 0, packets, **options)
        )

    def answer(self, number, *frames):
        self.add(number, *frames, source=SERVER, destination=CLIENT)

    def half(self, number, side="client"):
        half = self.connection.streams[number, side].assembled()
        return half.content, half.end, half.faults

    def test_pieces_in_any_order(self):
        self.add(0, stream(0, 4, b"efgh", fin=True))
        self.add(1, stream(0, 0, b"abc"))
        self.add(2, stream(0, 2, b"cdef"))
        self.assertEqual(self.half(0), (b"abcdefgh", "ended", []))

    def test_hole(self):
        self.add(0, stream(0, 0, b"ab"), stream(0, 4, b"efg"), stream(0, 5, b"fghi"))
        words = "bytes are missing at 2, 5 after a hole left out"
        self.assertEqual(self.half(0), (b"ab", words, [words]))

    def test_end_without_the_bytes_before_it(self):
        self.add(0, stream(0, 0, b"ab"), stream(0, 4, b"", fin=True))
        self.assertEqual(self.half(0)[1], "bytes are missing at 2")

    def test_end_without_bytes(self):
        self.add(0, stream(0, 0, b"", fin=True))
        self.assertEqual(self.half(0), (b"", "ended", []))

    def test_other_bytes_in_the_same_place(self):
        self.add(0, stream(0, 0, b"abc"), stream(0, 1, b"xc", fin=True))
        self.assertEqual(self.half(0)[2], ["it was sent twice, with other bytes"])

    def test_final_size_changes(self):
        for frames in (
            [stream(0, 0, b"abc", fin=True), stream(0, 0, b"abcd", fin=True)],
            [stream(0, 0, b"abc", fin=True), stream(0, 3, b"d")],
        ):
            self.setUp()
            self.add(0, *frames)
            self.assertIn("its final size changes", self.half(0)[2])

    def test_reset(self):
        reset = tree(
            ("quic.frame_type", "4"),
            ("quic.rsts.stream_id", "8"),
            ("quic.rsts.application_error_code", "268"),
            ("quic.rsts.final_size", "5"),
        )
        self.add(0, stream(8, 0, b"ab"), reset)
        self.assertEqual(self.half(8), (b"ab", "reset with code 0x10c at 5 bytes", []))
        self.add(1, stream(8, 4, b"e"))
        words = "reset with code 0x10c at 5 bytes, 1 after a hole left out"
        self.assertEqual(self.half(8), (b"ab", words, []))
        self.add(2, stream(8, 2, b"cde"))
        self.assertEqual(self.half(8), (b"abcde", "reset with code 0x10c", []))

    def test_same_packet_twice(self):
        datagram = tree(("quic.frame_type", "48"), ("quic.dg", "61:62"))
        self.add(7, datagram)
        self.add(7, datagram)
        self.add(8, datagram, tree(("quic.frame_type", "49"), ("quic.dg.length", "0")))
        self.assertEqual(self.connection.datagrams, [("client", b"ab")] * 2 + [("client", b"")])

    def test_unknown_frame(self):
        unknown = tree(
            ("quic.frame_type", "0x24"), ("_ws.expert", tree(("quic.ft.unknown", "")))
        )
        self.add(0, stream(0, 0, b"a"), unknown, stream(0, 1, b"garbage"))
        self.assertEqual(self.half(0)[0], b"a")
        why = "tshark does not know QUIC frames of type 0x24"
        self.assertEqual(self.connection.stopped, [(1, why)])

    def test_frames_that_end_early(self):
        whole = stream(0, 0, b"a")
        reset = tree(("quic.frame_type", "4"), ("quic.rsts.stream_id", "4"))
        for kind, frame in (
            ("0xe", tree(*[pair for pair in whole if pair[0] != "quic.stream_data"])),
            ("0xe", tree(*whole[:2])),
            ("0x4", reset),
            ("0x2", tree(("quic.frame_type", "2"))),
            ("0x1c", tree(("quic.frame_type", "28"))),
            ("0x31", tree(("quic.frame_type", "49"), ("quic.dg.length", "9"))),
        ):
            self.setUp()
            self.add(0, frame, whole)
            words = f"a QUIC frame of type {kind} ends early"
            self.assertEqual(self.connection.stopped, [(1, words)])
            self.assertEqual((self.connection.streams, self.connection.datagrams), ({}, []))

    def test_malformed(self):
        self.add(0, stream(0, 0, b"a"), is_malformed=True)
        self.assertEqual(self.connection.stopped, [(1, "tshark calls it malformed")])

    def test_not_decrypted(self):
        self.add(None)
        self.answer(None)
        self.answer(None)
        counts = {side: (one.first, one.count) for side, one in self.connection.unread.items()}
        self.assertEqual(counts, {"client": (1, 1), "server": (2, 2)})

    def test_client_moves(self):
        self.add(0, stream(0, 0, b"a"))
        self.add(1, stream(0, 1, b"b"), source=MOVED)
        self.add(0, stream(0, 0, b"c"), source=SERVER, destination=MOVED)
        self.assertEqual(self.half(0)[0], b"ab")
        self.assertEqual(self.half(0, "server")[0], b"c")
        self.assertEqual(self.connection.addresses["client"], [CLIENT, MOVED])

    def test_neither_end(self):
        self.add(0, stream(0, 0, b"a"))
        self.add(0, stream(0, 1, b"b"), source=MOVED, destination=MOVED)
        self.assertEqual(list(self.connection.unread), [None])

    def test_lost(self):
        for number in (0, 1, 5):
            self.add(number, tree(("quic.frame_type", "1")))
        self.answer(0, ack(9, 1, 0, 5))
        # 8 to 9 and 1 to 6 were received
        self.assertEqual(self.connection.lost("client"), [(2, 5), (6, 7), (8, 10)])
        self.assertEqual(self.connection.lost("server"), [])


class FramesTest(unittest.TestCase):
    def test_ranges_of_an_ack(self):
        self.assertEqual(acknowledged(ack(9, 1, 0, 5)), [(8, 10), (1, 7)])
        self.assertEqual(acknowledged(ack(5, 5)), [(0, 6)])

    def test_ranges(self):
        self.assertEqual(merged([(4, 6), (0, 2), (1, 3), (6, 7)]), [[0, 3], [4, 7]])
        self.assertEqual(without([(0, 5)], {0, 2, 4}), [(1, 2), (3, 4)])
        self.assertEqual(without([(0, 5)], range(9)), [])

    def test_no_pieces(self):
        self.assertEqual(Sending().assembled().end, "open")

    def test_closes(self):
        frame = tree(("quic.cc.error_code.app", "256"), ("quic.cc.reason_phrase", "a\nb"))
        self.assertEqual(close_words(frame), "with code 0x100 of the application, 'a\\nb'")
        frame = tree(("quic.cc.error_code", "0x0a"), ("quic.cc.reason_phrase", ""))
        self.assertEqual(close_words(frame), "with code 0xa of the transport")


class OutputTest(unittest.TestCase):
    def test_objects(self):
        things = [{"a": {"b": "}"}}, {"c": "1"}]
        text = json.dumps(things, indent=2)
        self.assertEqual(list(trees_in(io.StringIO(text))), [[("a", [("b", "}")])], [("c", "1")]])
        self.assertEqual(list(trees_in(io.StringIO("[\n]\n"))), [])

    def test_packets(self):
        short = tree(("quic.short", tree(("quic.packet_number", "7"))))
        self.assertEqual(packet_of(short).number, 7)
        for name, kind, version, space in (
            ("quic.long.packet_type", "0", "0x00000001", "Initial"),
            ("quic.long.packet_type", "1", "0x00000001", SPACE),
            ("quic.long.packet_type", "3", "0x00000001", None),
            ("quic.long.packet_type_v2", "1", "0x6b3343cf", "Initial"),
            ("quic.long.packet_type_v2", "0", "0x6b3343cf", None),
            ("quic.long.packet_type", "0", "0x00000000", None),
        ):
            packet = packet_of(tree((name, kind), ("quic.version", version)))
            self.assertEqual(packet and packet.space, space, (name, kind, version))

    def test_padding(self):
        for bit, rest, is_packet in (("0", "00:00", False), ("1", "00", True), ("0", "01", True)):
            quic = tree(
                ("quic.short", tree(("quic.fixed_bit", bit))), ("quic.remaining_payload", rest)
            )
            self.assertEqual(packet_of(quic) is not None, is_packet, (bit, rest))


if __name__ == "__main__":
    unittest.main()
