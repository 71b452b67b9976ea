"""Unit tests of tools/definitions and tools/check-paths."""

import importlib.machinery
import importlib.util
import pathlib
import sys
import tempfile
import unittest

TOOLS = pathlib.Path(__file__).resolve().parent


def tool(name):
    """A tool without an ending, as a module."""
    module_name = name.replace("-", "_")
    loader = importlib.machinery.SourceFileLoader(module_name, str(TOOLS / name))
    module = importlib.util.module_from_spec(importlib.util.spec_from_loader(module_name, loader))
    sys.modules[module_name] = module
    loader.exec_module(module)
    return module


DEFINITIONS = tool("definitions")
PATHS = tool("check-paths")

SPECS = """-- Numbers.
use Rattle.std.specs.Prelude.{N}

-- s is an encoding of v,
-- in any width
pub record Encodes (v : N) (s : List N) : Type 0 where
  pub width : Width

abbrev pub IsSmall : N -> Type 0
IsSmall n = n < 64

-- ---- the same, computed

abbrev pub kinds : Kind -> N
kinds Data = 0
kinds (Other n) = n
"""


class Definitions(unittest.TestCase):
    def test_forms_and_comments(self):
        self.assertEqual(
            list(DEFINITIONS.definitions(SPECS)),
            [
                ("Encodes", "Encodes v s", "s is an encoding of v, in any width"),
                ("IsSmall", "IsSmall n", "`n < 64`"),
                ("kinds", "kinds", ""),
            ],
        )

    def test_a_heading_is_no_comment(self):
        lines = ["-- ---- a heading", "abbrev pub f : N"]
        self.assertEqual(DEFINITIONS.comment_above(lines, 1), "")


class Paths(unittest.TestCase):
    def named(self, text):
        with tempfile.TemporaryDirectory() as folder:
            document = pathlib.Path(folder) / "a.md"
            document.write_text(text, encoding="utf-8")
            return [(word, good) for _, word, good in PATHS.named(document)]

    def test_paths_in_spans(self):
        self.assertEqual(
            self.named("`tools/test`, `tools/none`, `a/b`"),
            [("tools/test", True), ("tools/none", False)],
        )
        self.assertEqual(self.named("`wtp_core/src/lib.rt`"), [("wtp_core/src/lib.rt", True)])

    def test_paths_below_a_crate_of_the_line(self):
        self.assertEqual(self.named("| `wtp_core` | `src/varint.rt` |"), [("src/varint.rt", True)])
        self.assertEqual(self.named("`src/varint.rt`"), [("src/varint.rt", False)])

    def test_what_is_made_or_stands_for_a_name_is_left_out(self):
        self.assertEqual(self.named("`c/out/a.h`, `crates/NAME/src/a.rt`"), [])

    def test_names_of_which_a_path_is_given(self):
        place = "wtp_core/src/varint.rt"
        self.assertEqual(
            self.named(f"`VarInt::into_inner`, `first_*` (`{place}`)"),
            [(place, True), ("VarInt::into_inner", True), ("first_*", True)],
        )
        self.assertEqual(self.named(f"`none` (`{place}`)"), [(place, True), ("none", False)])
        self.assertEqual(self.named(f"`none` of these (`{place}`)"), [(place, True)])

    def test_commands_and_links(self):
        self.assertEqual(self.named("```sh\ntools/test   # all\n```\n"), [("tools/test", True)])
        self.assertEqual(
            self.named("# A head\n[x](#a-head) [y](#none) [z](b.md)"),
            [("#a-head", True), ("#none", False), ("b.md", False)],
        )
        self.assertEqual(self.named("[x](https://example.com/a.md)"), [])


if __name__ == "__main__":
    unittest.main()
