"""Unit tests of c/test-abi, with a small library in place of libwtransport. They need cc (CC), nm
and readelf, and are skipped without them.
"""

import os
import re
import shutil
import subprocess
import tempfile
import unittest
from pathlib import Path

TOP = Path(__file__).resolve().parent.parent
CC = os.environ.get("CC", "cc")
TOOLS = [CC, "nm", "readelf"]
READ = "wt_state *state, const uint8_t *bytes, size_t length"

HEADER = f"""#include <stddef.h>
#include <stdint.h>
#define WT_LONGEST 4096
enum {{ WT_OK = 0, WT_ERROR = -1 }};
typedef struct wt_state {{
  uint64_t id;
  uint32_t kind, detail;
}} wt_state;
int wt_begin(uint64_t id, wt_state *state);
int wt_read({READ});
"""
SOURCE = f"""#include "wtransport.h"
int wt_begin(uint64_t id, wt_state *state) {{ state->id = id; return WT_OK; }}
int wt_read({READ}) {{ return WT_ERROR; }}
"""
LIST = """# a list
1.2.0 soname libwtransport.so.1
1.2.0 call int wt_begin(uint64_t, wt_state *)
1.2.3 call int wt_read(wt_state *, const uint8_t *, size_t)
1.2.0 constant WT_LONGEST 4096
1.2.0 constant WT_OK 0
1.2.0 constant WT_ERROR -1
1.2.0 struct wt_state 16: uint64_t id 0; uint32_t kind 8; uint32_t detail 12;
"""
# What c/test-abi says of a line that is wrong.
FAULT = re.compile(r": (the library does not|c/abi.list does not|the list says|it is lost).*$")
CALL = "call int wt_read(wt_state *, const uint8_t *, size_t)"
STATE = "struct wt_state 16: uint64_t id 0; uint32_t kind 8; uint32_t detail 12;"

# What changes in the header and in the library, and the lines of the list and of the library that
# are then wrong.
CHANGES = {
    "a call vanishes": ([(f"int wt_read({READ})", "static int unused(void)")], {CALL}),
    "a call is not exported": (
        [(f"int wt_read({READ}) {{", f"int wt_reads({READ}) {{")],
        {CALL, f"{CALL} is not exported", "call wt_reads is in no header"},
    ),
    "an argument changes": (
        [(READ, READ.replace("size_t", "uint32_t"))],
        {CALL, "call int wt_read(wt_state *, const uint8_t *, uint32_t)"},
    ),
    "a result changes": (
        [("int wt_read(", "size_t wt_read(")],
        {CALL, "call size_t wt_read(wt_state *, const uint8_t *, size_t)"},
    ),
    "a struct grows": (
        [("detail;\n}", "detail;\n  uint64_t more;\n}")],
        {STATE, STATE.replace("16", "24") + " uint64_t more 16;"},
    ),
    "fields change places": (
        [("kind, detail;", "detail, kind;")],
        {STATE, "struct wt_state 16: uint64_t id 0; uint32_t detail 8; uint32_t kind 12;"},
    ),
    "a field has another type of the same size": (
        [("uint64_t id;\n", "size_t id;\n")],
        {STATE, STATE.replace("uint64_t id", "size_t id")},
    ),
    "a constant has another number": (
        [("WT_LONGEST 4096", "WT_LONGEST 8192")],
        {"constant WT_LONGEST 4096", "constant WT_LONGEST 8192"},
    ),
    "a constant vanishes": (
        [("enum { WT_OK = 0, WT_ERROR", "enum { ok, WT_ERROR"), ("return WT_OK", "return ok")],
        {"constant WT_OK 0"},
    ),
    "a call comes": (
        [
            ("\nint wt_begin", "\nint wt_more(void);\nint wt_begin"),
            ('h"\n', 'h"\nint wt_more(void) { return 0; }\n'),
        ],
        {"call int wt_more(void)"},
    ),
}


@unittest.skipUnless(all(map(shutil.which, TOOLS)), "cc, nm or readelf is missing")
class Interface(unittest.TestCase):
    def setUp(self):
        room = tempfile.TemporaryDirectory()
        self.addCleanup(room.cleanup)
        self.room = Path(room.name)
        (self.room / "c").mkdir()
        shutil.copy(TOP / "c/test-abi", self.room / "c/test-abi")
        (self.room / "VERSION").write_text("1.2.3\n", encoding="utf-8")

    def run_test(self, changes=(), lines=LIST, soname="libwtransport.so.1", options=()):
        """Runs c/test-abi on the library with these changes. Returns the lines that it says are
        wrong, and its status."""
        header, source = HEADER, SOURCE
        for old, new in changes:
            self.assertTrue(old in header or old in source, old)
            header, source = header.replace(old, new), source.replace(old, new)
        out = self.room / "out"
        out.mkdir(exist_ok=True)
        (self.room / "c/abi.list").write_text(lines, encoding="utf-8")
        (out / "wtransport.h").write_text(header, encoding="utf-8")
        (out / "wtransport.c").write_text(source, encoding="utf-8")
        library = ["-o", out / "libwtransport.so", out / "wtransport.c", f"-I{out}"]
        shared = ["-shared", "-fPIC", "-w", f"-Wl,-soname,{soname}"]
        subprocess.run([CC, *shared, *library], check=True)
        ran = subprocess.run(
            [self.room / "c/test-abi", *options, out], capture_output=True, text=True, check=False
        )
        *said, counts = ran.stdout.splitlines() or [ran.stderr]
        wrong = {FAULT.sub("", line) for line in said}
        self.assertRegex(counts, f"^[0-9]+ passed, {len(wrong)} failed$")
        return wrong, ran.returncode

    def test_the_same_interface(self):
        self.assertEqual(self.run_test(), (set(), 0))

    def test_each_change_is_a_failure(self):
        for name, (changes, wrong) in CHANGES.items():
            with self.subTest(name):
                self.assertEqual(self.run_test(changes), (wrong, 1))

    def test_another_soname(self):
        wrong = {"soname libwtransport.so.1", "soname libwtransport.so.2"}
        self.assertEqual(self.run_test(soname="libwtransport.so.2"), (wrong, 1))

    def test_a_line_of_a_later_version(self):
        lines = LIST.replace("1.2.3 call", "1.10.0 call")
        self.assertEqual(self.run_test(lines=lines), ({CALL}, 1))

    def test_lists_of_earlier_versions(self):
        earlier = self.room / "earlier"
        earlier.write_text(LIST, encoding="utf-8")
        before = ["--before", earlier]
        self.assertEqual(self.run_test(options=before), (set(), 0))
        # a list that was changed with the library, and one with another version of a line
        lost = LIST.replace("4096", "8192")
        changes = [("WT_LONGEST 4096", "WT_LONGEST 8192")]
        wrong = {"before: constant WT_LONGEST 4096"}
        self.assertEqual(self.run_test(changes, lost, options=before), (wrong, 1))
        moved = LIST.replace("1.2.0 constant WT_OK", "1.2.1 constant WT_OK")
        wrong = {"before: constant WT_OK 0"}
        self.assertEqual(self.run_test(lines=moved, options=before), (wrong, 1))
        # with a new soname lines may change
        again = lost.replace("so.1", "so.2")
        found = self.run_test(changes, again, "libwtransport.so.2", before)
        self.assertEqual(found, (set(), 0))

    def test_missing_lines(self):
        lines = "".join(line for line in LIST.splitlines(True) if "wt_begin" not in line)
        self.run_test(lines=lines)
        command = [self.room / "c/test-abi", "--missing", self.room / "out"]
        ran = subprocess.run(command, capture_output=True, text=True, check=True)
        self.assertEqual(ran.stdout, "1.2.3 call int wt_begin(uint64_t, wt_state *)\n")
