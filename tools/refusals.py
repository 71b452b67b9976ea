"""Reads what the prover says of a function whose body was changed, and tells what its goals say
from what only the names in its hand-written proof say.

A hand-written proof speaks of the steps of one body: `c.get_bytes.ensures.found` is a fact of the
call `get_bytes`. Where another body has another call there, such a proof does not fit, whatever the
contract says of that body. So a refusal is

  by a goal:   the automatic search leaves a goal ("it is not proved that .."), perhaps with values
  at which it
               is false; or an answer of the proof differs from what its goal asks in a value: one
               has `0` where the other has `c.take.result`, or `c.pair.left` where the other has
               `c.pair.right`; or `omega` finds numbers at which the goal fails;
  by a name:   an answer names a step, a field or a goal that is gone; one has `c.get_bytes` where
  the other has
               `c.get_varint`; or the prover does not say in a few words where the two differ.

The unit tests are in tools/test_refusals.py.
"""

import re
from dataclasses import dataclass

# A file, a line, and what the prover says there, with the lines below that are indented.
SAID = re.compile(
    r"^(?:note: )?(?:\./)?((?:src|proofs|specs)/[^:\s]+):(\d+):\d+: (.*(?:\n  .*)*)", re.MULTILINE
)
IN_SOURCE = re.compile(r"it is not proved .*?(?:\(`([^`]+)`\))?(?:; |$)")
# (a note on a declaration refuses nothing, though it may name a type with `error` in its path)
IN_PROOF = re.compile(r"error: (?:`([^`]+)`: )?")
# What the prover says of a proof that cites one which it has refused, or a name that is gone.
GONE = re.compile(r"has no field|is not in scope|has no `|was not admitted")
GONE_GOAL = re.compile(r"module `[\w.+-]+\.Goals` has no `([^`]+)`")
DIFFER = re.compile(
    r"the two (?:types|sides) (?:first )?differ (?:only )?where one has `([^`]*)` "
    r"\((?:expected|left)\)"
    r".*?(?:and the other has|and the other) `([^`]*)` \((?:found|right)\)"
)
# Both types whole, where the prover does not say in which term they differ.
TYPES = re.compile(
    r"apart from the names of bound variables expected type `([^`]*)` but this has type `([^`]*)`"
    r"|computed as far as they go, the two types are `([^`]*)` \(expected\) and `([^`]*)` \(found\)"
)
FAILS_AT = re.compile(r"the goal fails, at `")
# The path of a value among those that the steps of a body give, as `c.get_bytes.new.self`; its
# first part is the step.
OF_STEP = re.compile(r"c\.([^\s.()]+)(?:\.[^\s()]+)*")


@dataclass(frozen=True)
class Refusal:
    """A line by which the prover refuses something: its file and line, the goal (or the answer to
    it) if it names one, what it says, and whether a goal says so rather than a name. `gone` is a
    goal that the proof answers and that the body no longer has."""

    path: str
    line: int
    goal: str
    words: str
    is_by_goal: bool
    gone: str = ""

    @property
    def is_false(self):
        """Returns whether the prover found values at which the goal is false."""
        return "the facts known there allow values" in self.words

    def __str__(self):
        return f"{self.path}:{self.line}: {self.words[:200]}"


def sort_of(goal):
    """Returns what a goal asks wherever it comes up: `returns` and `clause-rest` of
    `returns-in-Some-clause-rest`."""
    place, _, clause = goal.partition("-clause-")
    return re.split(r"-(?:in|then|else|after)[-_]", place)[0], clause, place.endswith("-preserved")


def may_be(goal, gone):
    """Returns whether a goal may be one of those that are gone, under another name."""
    return any(sort_of(goal) == sort_of(other) for other in gone)


def differ_in_a_name(expected, found):
    """Returns whether two terms are each a value of some step, and the steps are not the same, or
    one is cut short."""
    if "…" in expected + found:
        return True
    steps = [OF_STEP.fullmatch(side) for side in (expected, found)]
    return all(steps) and steps[0][1] != steps[1][1]


def is_by_goal(words):
    """Returns whether an error in a proof is about its goal and not only about a name."""
    if GONE.search(words):
        return False
    if differ := DIFFER.findall(words):
        # (the last is of the types as far as they can be computed)
        return not differ_in_a_name(*differ[-1])
    if types := TYPES.search(words):
        expected, found = (
            re.findall(r"[^\s()]+", side) for side in types.groups() if side is not None
        )
        differ = [pair for pair in zip(expected, found) if pair[0] != pair[1]]
        is_whole = len(expected) == len(found) and "…" not in types[0]
        return is_whole and any(not differ_in_a_name(*pair) for pair in differ)
    return bool(FAILS_AT.search(words))


def refusals(said):
    """Returns what the prover refuses, those by a goal first, and of these those in the sources
    first."""
    found = []
    for path, line, words in SAID.findall(said):
        words = " ".join(words.split())
        if path.startswith("src/"):
            if source := IN_SOURCE.search(words):
                found.append(Refusal(path, int(line), source[1] or "", words, is_by_goal=True))
        elif proof := IN_PROOF.match(words):
            gone = GONE_GOAL.search(words)
            goal = proof[1] or ""
            found.append(
                Refusal(path, int(line), goal, words, is_by_goal(words), gone[1] if gone else "")
            )
    return sorted(
        found, key=lambda refusal: (not refusal.is_by_goal, not refusal.path.startswith("src/"))
    )
