"""Unit tests of tools/played_ends.py: what wt_recorded prints for its standard input is what the
recordings have, and no line of it can be missing, come twice, or come with another command."""

import unittest
from pathlib import Path

from recorded_connections import connections_in
from recorded_ends import RecordedEnds

TOP = Path(__file__).resolve().parent.parent
PROGRAM = TOP / "crates/wt_recorded"
# The recordings of the standard input, in its order, with the capacity of the table.
PLAYED = [
    ("chr07-0-c2s", 0), ("chr07-0-s2c", 65_536), ("chr07-1-c2s", 0), ("nginx-c2s", 4096),
    ("pyodd-s2c", 0), ("nghttp3static-s2c", 0),
]
# Lines of which only some are compared: what acknowledges insertions, and what says the same twice.
LOOSE = ("decoder", "held", "broken", "closes")


def played():
    """Yields each recording, its script and its lines."""
    recorded = {one.name: one for one in connections_in(TOP / "tools/recordings.d")}
    lines = (PROGRAM / "stdin").read_text(encoding="utf-8").splitlines(keepends=True)
    starts = [at for at, line in enumerate(lines) if line.startswith(("server ", "client "))]
    shown = (PROGRAM / "stdout").read_text(encoding="utf-8").split("connection\n")[1:]
    ends = [*starts[1:], len(lines)]
    for (name, table), first, last, block in zip(PLAYED, starts, ends, shown):
        script = "".join(lines[first:last])
        yield RecordedEnds(recorded[name], table), script, block.splitlines()


def changed(lines, place):
    """Yields lines of which that at a place is missing, comes twice or with another command."""
    number, rest = lines[place].split(" ", 1)
    before, after = lines[:place], lines[place + 1 :]
    yield [*before, *after]
    yield [*before, lines[place], lines[place], *after]
    for other in (int(number) - 1, int(number) + 1):
        yield [*before, f"{other} {rest}", *after]


class PlayedEndsTest(unittest.TestCase):
    def test_the_recordings(self):
        for ends, script, lines in played():
            self.assertIsNone(ends.fault(script, lines), ends.name)

    def test_changed_lines(self):
        count = 0
        for ends, script, lines in played():
            if ends.name in ("pyodd-s2c", "chr07-1-c2s"):
                continue
            for place, line in enumerate(lines):
                if line.split()[2] in LOOSE:
                    continue
                for other in changed(lines, place):
                    count += 1
                    self.assertIsNotNone(ends.fault(script, other), (ends.name, line))
        self.assertGreater(count, 100)


if __name__ == "__main__":
    unittest.main()
