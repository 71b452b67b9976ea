"""Unit tests of tools/take-libraries, over two small clones whose libraries were never proved. They
need rt, and are skipped without it.
"""

import os
import shutil
import subprocess
import tempfile
import unittest
from pathlib import Path

TOOL = Path(__file__).resolve().parent / "take-libraries"
# The libraries of a clone, and what each stands on. The third is a program.
CRATES = "low:\nhigh: low\nuser: high\n"


@unittest.skipUnless(shutil.which("rt"), "rt is missing")
class Taking(unittest.TestCase):
    def setUp(self):
        self.room = tempfile.TemporaryDirectory()
        self.addCleanup(self.room.cleanup)
        self.theirs, self.ours = (self.clone(name) for name in ("theirs", "ours"))
        for name in ("low", "high"):
            self.leave_library(self.theirs, name)

    def clone(self, name):
        """Makes a clone without libraries."""
        top = Path(self.room.name) / name
        for crate, root in [("low", "lib"), ("high", "lib"), ("user", "main")]:
            (top / "crates" / crate / "src").mkdir(parents=True)
            (top / "crates" / crate / f"src/{root}.rt").write_text("pub fn f() {}\n")
        (top / "crates.txt").write_text(CRATES)
        (top / ".git").mkdir()
        (top / "tools").mkdir()
        shutil.copy(TOOL, top / "tools")
        return top

    def leave_library(self, top, name):
        """Leaves a library as `rt ci` does, without a stamp and a second after its sources."""
        library = self.library(top, name)
        library.mkdir(parents=True)
        (library / "interface").write_text(name)
        later = (top / f"crates/{name}/src/lib.rt").stat().st_mtime + 1
        os.utime(library, (later, later))

    def library(self, top, name):
        return top / "crates" / name / f"out/rlib/{name}.rlib"

    def taken(self):
        """Returns the names that the tool says it took, and that are there."""
        command = [self.ours / "tools/take-libraries", self.theirs]
        ran = subprocess.run(command, capture_output=True, text=True, check=True)
        names = ran.stdout.split()[1:-1]
        for name in names if names != ["nothing"] else []:
            library = self.library(self.ours, name)
            self.assertEqual((library / "interface").read_text(), name)
            self.assertTrue((library.parent / "stamp").is_file())
        return names

    def test_libraries_of_the_same_sources_are_taken_once(self):
        self.assertEqual(self.taken(), ["low", "high"])
        self.assertEqual(self.taken(), ["nothing"])

    def test_a_library_of_other_sources_is_not(self):
        (self.ours / "crates/high/src/lib.rt").write_text("pub fn g() {}\n")
        self.assertEqual(self.taken(), ["low"])

    def test_a_library_over_other_sources_is_not(self):
        (self.ours / "crates/low/src/lib.rt").write_text("pub fn g() {}\n")
        self.assertEqual(self.taken(), ["nothing"])

    def test_a_library_that_is_older_than_its_source_is_not(self):
        os.utime(self.library(self.theirs, "high"), (1, 1))
        self.assertEqual(self.taken(), ["low"])

    def test_nothing_is_taken_while_an_rt_ci_runs(self):
        (self.theirs / ".git/rt-aside").mkdir()
        self.assertEqual(self.taken(), ["nothing"])

    def test_a_stamp_decides(self):
        stamp = self.library(self.theirs, "low").parent / "stamp"
        stamp.write_text("of other sources")
        self.assertEqual(self.taken(), ["nothing"])
        stamp.unlink()
        os.utime(self.library(self.theirs, "low"))
        self.taken()
        for name in ("low", "high"):
            kept = self.library(self.ours, name).parent / "stamp"
            shutil.copy(kept, self.library(self.theirs, name).parent)
        shutil.rmtree(self.ours / "crates/low/out")
        shutil.rmtree(self.ours / "crates/high/out")
        # (a library with its stamp is one of rt check or rt lib, whenever it was made)
        os.utime(self.library(self.theirs, "low"), (1, 1))
        self.assertEqual(self.taken(), ["low", "high"])


if __name__ == "__main__":
    unittest.main()
