"""What a check found: a line for each thing that it looked at, and a closing line with the counts.

    outcomes = Outcomes("table")
    outcomes.add("PAIRS", fault)        # None if nothing is wrong
    sys.exit(outcomes.end())
"""


class Outcomes:
    """The outcomes of a check, each of which is a line `KIND NAME ... ok` or `.. FAILED`."""

    def __init__(self, kind):
        self.kind, self.passed, self.failed = kind, 0, 0

    def add(self, name, fault=None):
        """Prints one outcome, after its fault if it has one."""
        if fault:
            self.failed += 1
            print(f"{name}: {fault}")
        else:
            self.passed += 1
        print(f"{self.kind} {name} ... {'FAILED' if fault else 'ok'}")

    def end(self):
        """Prints the closing line. Returns the exit status: 0 if some passed and none failed."""
        print(f"{self.passed} passed, {self.failed} failed")
        return 0 if self.passed and not self.failed else 1
