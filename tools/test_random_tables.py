"""Unit tests of tools/random_tables.py and tools/decoder_stream.py, by the example of RFC 9204,
Appendix B."""

import random
import unittest
from types import SimpleNamespace

from decoder_stream import ACKNOWLEDGMENT, CANCELLATION, INCREMENT, instructions_in
from random_tables import Encoder, RandomTables, Section, Stream, Told, indexed, size_of

ENTRIES = [
    (b":authority", b"www.example.com"),
    (b":path", b"/sample/path"),
    (b"custom-key", b"custom-value"),
    (b":authority", b"www.example.com"),
    (b"custom-key", b"custom-value2"),
]


class EncoderTest(unittest.TestCase):
    def test_the_table(self):
        encoder = Encoder(None, 220)
        self.assertEqual(encoder.with_capacity(220, 0), b"\x3f\xbd\x01")
        sizes = []
        for entry in ENTRIES:
            self.assertEqual(encoder.inserted(entry, b"instruction", 1), b"instruction")
            sizes.append(sum(size_of(one) for one in encoder.entries))
        self.assertEqual(sizes, [57, 106, 160, 217, 215])
        self.assertEqual((encoder.inserts, encoder.dropped), (5, 1))

    def test_entries_that_are_kept(self):
        encoder = Encoder(None, 100)
        encoder.with_capacity(100, 0)
        self.assertEqual(encoder.inserted(ENTRIES[0], b"first", 0), b"first")
        self.assertEqual(encoder.inserted(ENTRIES[1], b"second", 0), b"")
        self.assertEqual((encoder.inserts, encoder.dropped), (1, 0))

    def test_sections(self):
        encoder = Encoder(None, 220)
        self.assertEqual(encoder.prefix(2, 0) + indexed(0, 0) + indexed(1, 0), b"\x03\x81\x10\x11")
        self.assertEqual(encoder.prefix(4, 4) + indexed(3, 4) + indexed(2, 4), b"\x05\0\x80\x81")


class ToldTest(unittest.TestCase):
    def setUp(self):
        section = Section(b"\3\x81\x10\x11", ENTRIES[:2], 2, 0)
        streams = {4: Stream(b"", [(section, 6)], []), 8: Stream(b"", [], [], is_reset=True)}
        limits = SimpleNamespace(limit=220)
        self.told = Told(SimpleNamespace(streams=streams, inserted=3, encoder=limits))

    def take(self, content):
        return [self.told.take(*instruction) for instruction in instructions_in(content)]

    def test_the_example(self):
        self.told.note_read(4)
        self.assertEqual(self.take(b"\x84\1\x48"), [None, None, None])
        self.assertIsNone(self.told.end_fault())

    def test_what_is_wrong(self):
        self.assertIsNotNone(self.told.end_fault())
        for content in (b"\x84", b"\x88", b"\0", b"\4"):
            self.setUp()
            self.assertIsNotNone(self.take(content)[0], content)
        self.setUp()
        self.told.note_read(4)
        self.assertEqual(self.take(b"\3\x48"), [None, None])
        self.assertIsNotNone(self.told.end_fault())

    def test_integers(self):
        found = list(instructions_in(b"\xff\x49\x7f\x00\x3e\x3f\x80\x01"))
        wanted = [(ACKNOWLEDGMENT, 200), (CANCELLATION, 63), (INCREMENT, 62), (INCREMENT, 191)]
        self.assertEqual(found, wanted)


class RandomTablesTest(unittest.TestCase):
    def test_they_have_what_they_are_for(self):
        made = [RandomTables(random.Random(seed)) for seed in range(20)]
        self.assertTrue(any(one.encoder.dropped for one in made))
        self.assertTrue(any(s.is_reset for one in made for s in one.streams.values()))
        self.assertTrue(any(one.fault for one in made))
        for one in made:
            self.assertLessEqual(sum(map(size_of, one.encoder.entries)), one.encoder.capacity)
            self.assertIsNotNone(one.difference([]))


if __name__ == "__main__":
    unittest.main()
