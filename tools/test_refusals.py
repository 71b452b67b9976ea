"""Unit tests of tools/refusals.py, over lines that the prover printed."""

import unittest

from refusals import may_be, refusals

ANSWERS = "./proofs/frame/Frame/read/Answers.antt:5:38: "


class Refusals(unittest.TestCase):
    def only(self, said):
        found = refusals(said)
        self.assertEqual(len(found), 1, said)
        return found[0]

    def check(self, said, is_by_goal):
        self.assertEqual(self.only(said).is_by_goal, is_by_goal)

    def differ(self, expected, found):
        words = (
            "error: `returns`: computed as far as they go, the two types differ only where one has"
        )
        return f"{ANSWERS}{words} `{expected}` (expected) and the other has `{found}`\n  (found)\n"

    def test_a_goal_that_the_search_leaves(self):
        said = (
            "note: src/frame.rt:170:13: it is not proved that what the function ensures holds when "
            "it returns (`returns-in_default-clause-rest`)\n"
        )
        refusal = self.only(said)
        self.assertTrue(refusal.is_by_goal)
        self.assertEqual((refusal.path, refusal.line), ("src/frame.rt", 170))
        self.assertEqual(refusal.goal, "returns-in_default-clause-rest")

    def test_a_goal_that_is_false(self):
        said = (
            "note: src/codes.rt:14:5: it is not proved that what the function ensures holds when "
            "it returns (`returns-in-UnknownFrame`); the facts known there allow values at which "
            "this goal is false\n"
        )
        self.check(said, True)
        self.assertEqual(self.only(said).goal, "returns-in-UnknownFrame")
        self.assertTrue(self.only(said).is_false)

    def test_the_result_of_another_call(self):
        self.check(self.differ("c.get_bytes", "c.get_varint"), False)
        self.check(self.differ("c.args.buffer.now", "c.fill.new.self"), False)
        self.check(self.differ("c.saturating_sub.result", "c.in-Skip.size"), False)

    def test_another_value(self):
        self.check(self.differ("0", "c.payload_due-self.result"), True)
        self.check(self.differ("c.in-Some.value.now", "c.in-Some.number.now"), True)
        self.check(self.differ("from_be_bytes", "◌+◌"), True)

    def test_the_last_difference_decides(self):
        said = self.differ("record {text = x}", "…").rstrip("\n")
        again = (
            "\n  computed as far as they go, the two types differ only where one has "
            "`c.len.result` (expected)"
        )
        self.check(said + again + " and the other has `(c.len.result % 1)` (found)\n", True)
        self.check(said + again + " and the other has `c.max.result` (found)\n", False)

    def test_types_that_are_printed_whole(self):
        words = (
            "error: `returns`: as printed, the two types are identical apart from the names of "
            "bound variables"
        )
        types = (
            "\n  expected type `Path c.a.result (List 0 [])`"
            "\n  but this has type `Path c.{}.result (List {} [])`\n"
        )
        self.check(ANSWERS + words + types.format("a", "2"), True)
        self.check(ANSWERS + words + types.format("b", "0"), False)

    def test_a_table_that_does_not_compute(self):
        words = (
            "error: `all_short`: expected type `all 254 ≡ true`, but this has type "
            "`all 254 ≡ all 254`"
        )
        types = (
            "\n  computed as far as they go, the two types are `{}` (expected) and `{}` (found)\n"
        )
        self.check(
            ANSWERS + words + types.format("Path Bool false true", "Path Bool false false"), True
        )
        self.check(
            ANSWERS + words + types.format("IsPart [] (c.be…[2243 bytes]….now)", "IsPart [] (c.a)"),
            False,
        )

    def test_a_term_that_is_cut_short(self):
        self.check(self.differ("{T = Content} …[276 bytes]… c.before.len.result", "0"), False)

    def test_a_goal_that_is_gone(self):
        said = (
            f"{ANSWERS}error: `returns-then-self-gt0`: `goal.returns-then-self-gt0`: module "
            "`Rattle.wtp_wire.proofs.frame.Frame.read.Goals` has no `returns-then-self-gt0` "
            "that can be named\n"
        )
        self.check(said, False)
        self.assertEqual(self.only(said).gone, "returns-then-self-gt0")

    def test_a_goal_under_another_name(self):
        self.assertTrue(may_be("returns-then-self-gt1", {"returns-then-self-gt0"}))
        self.assertTrue(may_be("returns-in-Some-clause-rest", {"returns-in_default-clause-rest"}))
        self.assertFalse(may_be("returns-in-Some-clause-rest", {"returns-in-Some-clause-kept"}))
        self.assertFalse(may_be("returns-in-Err", {"frames-preserved"}))
        self.assertFalse(may_be("returns-in-Err", set()))

    def test_a_field_that_is_gone(self):
        self.check(
            f"{ANSWERS}error: `returns`: record `View.In-Start` has no field `find`\n", False
        )

    def test_numbers_at_which_it_is_false(self):
        words = (
            "`omega`: the goal does not follow. All of that holds, and the goal fails, at "
            "`c.skip_remaining` = 1."
        )
        self.check(f"{ANSWERS}error: `returns`: {words}\n", True)

    def test_a_tactic_that_stops(self):
        self.check(
            f"{ANSWERS}error: `returns`: `rw`: no occurrence of the path's left endpoint\n", False
        )

    def test_notes_and_holes_refuse_nothing(self):
        self.assertEqual(
            refusals(f"{ANSWERS}note: `rw` rewrote the goal, of a type `error.Code`\n"), []
        )
        self.assertEqual(
            refusals(f"{ANSWERS}`unreachable-requires` is not admitted: has-holes\n"), []
        )

    def test_those_by_a_goal_come_first(self):
        said = (
            self.differ("c.a", "c.b")
            + self.differ("0", "1")
            + "note: src/a.rt:3:1: it is not proved that x (`g`)\n"
        )
        found = refusals(said)
        self.assertEqual([refusal.is_by_goal for refusal in found], [True, True, False])
        self.assertEqual(found[0].path, "src/a.rt")
