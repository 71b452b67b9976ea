"""Unit tests of the modules of tools/connections: what the model says of recorded streams, and of
the rows, is what the stacks and the rows say."""

import unittest

from connection_model import Side, events_of
from connection_rows import ROWS
from message_rules import content_length, expected_length
from message_rules import is_malformed_request, is_malformed_response
from recorded_connections import connections_in
from recorded_sessions import RecordedSessions
from replay import TOP
from message_bytes import CONNECT, GET, SESSION


class ModelTest(unittest.TestCase):
    def test_recorded_streams(self):
        for connection in connections_in(TOP / "tools/recordings.d"):
            side = Side(connection.is_to_server, True)
            states = {session: "open" for session in connection.sessions()}
            for stream in connection.streams:
                fin = stream.ended == "fin"
                opened, interims = stream.opened, stream.interims
                events, _ = events_of(
                    side, stream.stream, stream.content, fin, states, opened, interims
                )
                self.assertEqual(events, stream.events, f"{connection.name} {stream.stream}")

    def test_rows_of_one_stream(self):
        for row in ROWS:
            if row.after or (row.before and not row.before.startswith("request 0")):
                continue
            side, words = Side(not row.client, not row.plain), row.before.split()
            opened, interims = words[:1], int(words[-1]) if "interims" in words else 0
            events, _ = events_of(
                side, row.stream, row.data, row.end, {}, opened and opened[0], interims
            )
            faults = [event[1:] for event in events if event[0] == "fault"]
            self.assertEqual(faults, row.faults(), row.shows)


class SessionModelTest(unittest.TestCase):
    def test_recorded_connections(self):
        for connection in connections_in(TOP / "tools/recordings.d"):
            self.assertIsNone(RecordedSessions(connection).index_fault(), connection.name)

    def test_rules_of_messages(self):
        self.assertFalse(is_malformed_request(GET, False))
        self.assertTrue(is_malformed_request(SESSION, False))
        self.assertFalse(is_malformed_request(SESSION, True))
        self.assertTrue(is_malformed_request([*GET, (b"X", b"y")], False))
        self.assertFalse(is_malformed_request(CONNECT, False))
        self.assertTrue(is_malformed_request([CONNECT[0], (b"host", b"a")], False))
        self.assertTrue(is_malformed_request([CONNECT[0], (b":authority", b"a")], False))
        self.assertEqual(expected_length([], 204, "connect"), None)
        self.assertFalse(is_malformed_response([(b":status", b"204")], ""))
        self.assertTrue(is_malformed_response([(b":status", b"204")], "session"))
        accepted = [(b":status", b"200"), (b"content-length", b"abc")]
        self.assertFalse(is_malformed_response(accepted, "connect"))
        self.assertTrue(is_malformed_response(accepted, ""))
        self.assertEqual(content_length([(b"content-length", b"7, 07")]), 7)
        self.assertIs(content_length([(b"content-length", b"7, 8")]), False)


if __name__ == "__main__":
    unittest.main()
