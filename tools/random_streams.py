"""What random scripts share: streams in pieces, the orders of their lines, and scripts by the
batch."""

from dataclasses import dataclass, field

from replay import replayed


@dataclass
class StreamOfScript:
    """A stream of a script: its ID, its bytes, whether it ends after them, and whether it is reset
    or abandoned at last."""

    stream: int
    content: bytes
    fin: bool
    left_by: str = field(default="", kw_only=True)

    def lines(self, ends):
        """Returns the lines of its pieces, which end at these offsets, and of its end."""
        digits, lines, start = self.content.hex(), [], 0
        for end in ends:
            lines.append(f"bytes {self.stream} {digits[2 * start : 2 * end]}\n")
            start = end
        if self.fin and lines:
            lines[-1] = "end" + lines[-1][5:]
        elif self.fin:
            lines.append(f"end {self.stream}\n")
        if self.left_by:
            # (a stream is there from its first line on)
            lines = lines or [f"bytes {self.stream}\n"]
            lines.append(f"{self.left_by} {self.stream}\n")
        return lines

    def end(self):
        """Returns the offset at which its bytes end, or nothing if it has none."""
        return [len(self.content)] if self.content else []

    def cuts(self, rng):
        """Returns random offsets at which its pieces end."""
        size = len(self.content)
        if not size:
            return []
        if rng.random() < 0.2:
            return list(range(1, size + 1))
        places = {rng.randrange(1, size + 1) for _ in range(rng.randrange(6))}
        return sorted({*places, size})


def mixed(rng, parts):
    """Returns the lines of all parts in a random order that keeps the order within each part."""
    turns = [index for index, lines in enumerate(parts) for _ in lines]
    rng.shuffle(turns)
    left = [iter(lines) for lines in parts]
    return "".join([next(left[index]) for index in turns])


class Batch:
    """Some scripts, each with its seed, and the reader of the program's lines."""

    def __init__(self, scripts, events_in):
        self.scripts, self.events_in = scripts, events_in

    def fault(self, program, first_line=""):
        """Returns what is wrong with the first script that does not give what it has to, where all
        scripts come after this line."""
        texts = [script.text() for _, script in self.scripts]
        found = replayed(program, "".join([first_line, *texts]))
        if len(found) != 3 * len(texts):
            return f"{len(found)} connections, where {3 * len(texts)} were wanted"
        for index, (seed, script) in enumerate(self.scripts):
            ways = [self.events_in(lines) for lines in found[3 * index : 3 * index + 3]]
            if fault := script.fault(ways):
                return f"the script of seed {seed!r}: {fault}\n{texts[index]}"
        return None
