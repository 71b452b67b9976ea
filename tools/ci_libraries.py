"""The crates of crates.txt, and the arguments by which `rattle` checks one of them over the
libraries that `rt ci` leaves.

    python3 tools/ci_libraries.py NAME FILE [LINES]

builds the static library NAME over them, and writes it to FILE. With LINES, a file to which an
`rt ci` is writing its lines, it waits until that has proved NAME.

`rt ci` leaves each library in `crates/NAME/out/rlib`, and `rt lib` does not take these up: it would
prove all of them once more. They match the sources only until one changes, so nothing but `.ci/run`
uses them.
"""

import os
import re
import shutil
import subprocess
import sys
import tempfile
import time
from pathlib import Path

TOP = Path(__file__).resolve().parent.parent
KIT = Path(shutil.which("rattle") or "rattle").resolve().parent.parent


def rows():
    """Returns the crates of crates.txt, lowest first: the flags of each, and the libraries that it
    stands on."""
    lines = (TOP / "crates.txt").read_text(encoding="utf-8").splitlines()
    pairs = [line.split(":") for line in lines if line and not line.startswith("#")]
    return {left.split()[0]: (left.split()[1:], right.split()) for left, right in pairs}


def libraries_below(crates):
    """Returns the repository's libraries that these crates stand on, lowest first."""
    below, found = rows(), set()
    left = [library for crate in crates for library in below[crate][1]]
    while left:
        crate = left.pop()
        if crate in below and crate not in found:
            found.add(crate)
            left += below[crate][1]
    return [crate for crate in below if crate in found]


def arguments_of(folder, crate, elsewhere=None):
    """Returns the arguments by which rattle checks a crate whose sources are in a folder, over the
    libraries of the kit and those in `out/rlib`, or elsewhere for some."""
    flags, needs = rows()[crate]
    folders = {
        library: (elsewhere or {}).get(library, TOP / "crates" / library / "out/rlib")
        for library in libraries_below([crate])
    }
    root = "main" if (Path(folder) / "src/main.rt").exists() else "lib"
    arguments = ["--crate-name", crate, f"src/{root}.rt"]
    for library in ["std", *needs]:
        rlib = folders.get(library, KIT / "rlibs") / f"{library}.rlib"
        arguments += ["--extern", f"{library}={rlib}"]
    for rlibs in [KIT / "rlibs", *folders.values()]:
        arguments += ["-L", f"dependency={rlibs}"]
    if "staticlib" in flags:
        arguments += ["--crate-type", "staticlib"]
    project = KIT / "rattle/logic/antt-project.json"
    return [*arguments, "--antt-project", str(project), "--logic-built", str(KIT / "logic_built")]


class Beside:
    """An `rt ci` whose lines are being written to a file, or none, and a folder for copies of its
    libraries."""

    def __init__(self, path, room):
        self.path, self.room, self.caller, self.taken = path, Path(room), os.getppid(), {}

    def has_said(self, pattern):
        """Returns whether a line of the `rt ci` matches a pattern."""
        said = Path(self.path).read_text(encoding="utf-8", errors="replace")
        return re.search(pattern, said, re.MULTILINE)

    def has_ended(self):
        """Returns whether nothing more comes, as when the script that called both was killed."""
        return not self.path or os.getppid() != self.caller or self.has_said(r"^rt ci has ended$")

    def proves(self, crate):
        """Waits until `rt ci` has proved a crate, and returns whether it has."""
        while True:
            # (asked first, since its last lines may come in between)
            has_ended = self.has_ended()
            if self.has_said(rf"^rt: {crate} (proved|is kept)\b"):
                return True
            if has_ended or self.has_said(rf"^rt: {crate} NOT PROVED"):
                return False
            time.sleep(1)

    def take(self, crate):
        """Copies a library that `rt ci` has proved, since it may put another in its place when it
        ends."""
        if crate not in self.taken:
            copy = self.room / "libraries" / crate
            shutil.copytree(TOP / "crates" / crate / "out/rlib", copy)
            self.taken[crate] = copy


def main(words):
    if len(words) not in (2, 3) or words[0] not in rows():
        sys.exit("usage: python3 tools/ci_libraries.py NAME FILE [LINES], NAME in crates.txt")
    crate, file, *lines = words
    folder = TOP / "crates" / crate
    with tempfile.TemporaryDirectory() as room:
        beside = Beside(lines[0] if lines else "", room)
        if lines and not beside.proves(crate):
            sys.exit(f"{crate} is not built, since rt ci has not proved it")
        for library in libraries_below([crate]) if lines else []:
            beside.take(library)
        jobs = ["--jobs", str(max(1, os.cpu_count() // 2))]
        to = ["--toolchain", str(KIT / "toolchain"), "-o", os.path.abspath(file)]
        arguments = [*arguments_of(folder, crate, beside.taken), *jobs, *to]
        return subprocess.run(["rattle", "build", *arguments], cwd=folder).returncode


if __name__ == "__main__":
    sys.exit(main(sys.argv[1:]))
