"""Tries mutants of functions, and tells how the prover refuses each. What the
tries are, and what counts as refused, is in tools/mutants, which uses this.
"""

import collections
import re
import subprocess
from dataclasses import dataclass, field
from pathlib import Path

import ci_libraries
from edits import copied, copy_without_others, drop_answers, make, together
from refusals import may_be, refusals

# An edit is tried in so many checks beside others.
TRIES = 3
# What the prover says of a constant that has another value than its `prove!` states, which ends a
# check.
FALSE_CONSTANT = re.compile(
    r"^src/[^:\s]+:\d+:\d+: error\[failed-constant-evaluation\].*", re.MULTILINE
)
VERDICT = re.compile(r"^(only=\d+ (proved|holes)=\d+|holes=\d+|logic=(not-)?proved)", re.MULTILINE)


def call(folder, *words):
    """Runs a command in a folder. Returns its status and what it printed."""
    ran = subprocess.run(
        words,
        cwd=folder,
        stdout=subprocess.PIPE,
        stderr=subprocess.STDOUT,
        text=True,
        errors="replace",
    )
    return ran.returncode, ran.stdout


def last_lines(said):
    return "\n".join(said.split("\n")[-20:])


def of_edit(edit, found):
    """Returns those refusals that are of the functions which the edit changes: in their text, or in
    the files of their proofs. Without bodies any function may be."""
    return [
        refusal
        for refusal in found
        if not edit.bodies
        or any(
            (refusal.path == body.path and body.first_line <= refusal.line <= body.last_line)
            or refusal.path.startswith(f"{body.proof}/")
            for body in edit.bodies
        )
    ]


@dataclass
class Trial:
    """What is known of an edit: the first line by which a goal refuses its body, the refusals by
    names only, and why it could not be tried."""

    refused: str = ""
    by_names: list = field(default_factory=list)
    fault: str = "NOT refused"

    def note(self, found):
        """Takes up the refusals of one check."""
        gone = {refusal.gone for refusal in found} - {""}
        for refusal in found:
            # A goal of another name may be the one that the proof answers under its old name, and
            # need that answer.
            is_renamed = (
                refusal.path.startswith("src/")
                and not refusal.is_false
                and may_be(refusal.goal, gone)
            )
            if refusal.is_by_goal and not is_renamed and not self.refused:
                self.refused = str(refusal)
        if found and not self.refused:
            self.by_names = found

    @property
    def is_by_names(self):
        return bool(self.by_names) and not self.refused

    def line(self):
        if self.refused:
            return f"refused: {self.refused}"
        if self.by_names:
            return f"refused by names only: {self.by_names[0]}"
        return self.fault


@dataclass
class Part:
    """Some edits of one crate, tried in a copy of it."""

    crate: str
    folder: Path
    libraries: dict
    edits: list
    trials: dict

    def check(self, folder, places, *flags):
        """Checks some functions of a crate and those that they call, or all where none is named or
        the prover does not find one by its name. Returns whether there is a verdict, whether
        something was refused, and what was said."""
        words = [
            "rattle",
            "check",
            *ci_libraries.arguments_of(folder, self.crate, self.libraries),
            *flags,
        ]
        words += ["--incremental", "../incremental", "--jobs", "1"]
        status, said = call(
            folder, *words, *(word for place in sorted(places) for word in ("--only", place))
        )
        if places and status == 2:
            status, said = call(folder, *words)
        return bool(VERDICT.search(said)) and status in (0, 1), status == 1, said

    def check_without_others(self, folder, edits, made):
        """Checks the functions that edits change, with some of the edits made, and without the
        bodies of others. Returns whether there is a verdict, and what was said."""
        copy = copy_without_others(folder, self.crate, edits, made)
        has_verdict, _, said = self.check(
            copy, set().union(*(edit.places() for edit in edits)), "--allow-holes"
        )
        return has_verdict, said

    def found_in_batch(self, folder, batch):
        """Returns the refusals of each edit of a batch."""
        has_verdict, said = self.check_without_others(folder, batch, batch)
        if has_verdict:
            found = refusals(said)
            return {edit.name: of_edit(edit, found) for edit in batch}
        # One that does not compile hides the others.
        if len(batch) == 1:
            return {}
        half = len(batch) // 2
        return {
            **self.found_in_batch(folder, batch[:half]),
            **self.found_in_batch(folder, batch[half:]),
        }

    def found_beside_others(self, folder, edits):
        """Returns the refusals of each edit, tried beside others."""
        found, left, tries = {}, [edit for edit in edits if edit.bodies], collections.Counter()
        while left:
            # (what was not judged comes again, before any new one)
            batch = together([edit for edit in left if tries[edit.name]] or left)
            tries.update(edit.name for edit in batch)
            found.update(
                {name: those for name, those in self.found_in_batch(folder, batch).items() if those}
            )
            left = [edit for edit in left if edit.name not in found and tries[edit.name] < TRIES]
        return found

    def find_by_search(self, edits):
        """Tries edits that are refused by names only once more, without the answers that do not
        fit: a goal counts that the automatic search finds for the right body and not for the wrong
        one."""
        folder = copied(self.folder, "searching")
        dropped = collections.defaultdict(set)
        for edit in edits:
            for body in edit.bodies:
                for refusal in self.trials[edit.name].by_names:
                    if refusal.path.startswith(f"{body.proof}/"):
                        dropped[body] |= {refusal.goal, refusal.gone} - {""}
        for body, names in dropped.items():
            drop_answers(folder, body, names)
        has_verdict, said = self.check_without_others(folder, edits, [])
        if not has_verdict:
            return
        right = refusals(said)
        for name, found in self.found_beside_others(folder, edits).items():
            edit = next(edit for edit in edits if edit.name == name)
            open_goals = {refusal.goal for refusal in of_edit(edit, right)}
            gone = {refusal.gone for refusal in self.trials[name].by_names} & open_goals
            wrong = [
                refusal
                for refusal in found
                if refusal.is_by_goal
                and refusal.goal not in open_goals
                and not may_be(refusal.goal, gone)
            ]
            if wrong:
                self.trials[name].refused = f"{wrong[0]} (the search finds that of the right body)"

    def try_alone(self, edit):
        """Tries an edit over the whole crate."""
        trial = self.trials[edit.name]
        copy = copied(self.folder, "alone")
        make(copy, [edit])
        has_verdict, is_refused, said = self.check(copy, [])
        if not has_verdict and (constant := FALSE_CONSTANT.search(said)):
            trial.refused = constant[0]
        elif not has_verdict:
            trial.fault = f"BAD EDIT: it does not compile, or its check did not end\n{said[-2000:]}"
        elif is_refused:
            # (of the rest nothing changed but what the mutant gives it)
            trial.fault = "NOT SHOWN: no goal is refused"
            trial.note(refusals(said))

    def try_all(self, is_proved):
        """Tries all edits, once the right bodies are seen to be proved. Returns why not, or
        nothing."""
        if not is_proved:
            having_bodies = [edit for edit in self.edits if edit.bodies]
            has_verdict, said = self.check_without_others(self.folder, having_bodies, [])
            found = [str(one) for edit in having_bodies for one in of_edit(edit, refusals(said))]
            if not has_verdict or found:
                return f"{self.crate} is not proved as it is:\n" + (
                    "\n".join(found) or last_lines(said)
                )
        for name, found in self.found_beside_others(self.folder, self.edits).items():
            self.trials[name].note(found)
        for edit in self.edits:
            if not edit.changes:
                self.trials[edit.name].fault = "BAD EDIT: its text is not in the file exactly once"
            elif not self.trials[edit.name].refused and not self.trials[edit.name].by_names:
                self.try_alone(edit)
        by_names = [
            edit for edit in self.edits if edit.bodies and self.trials[edit.name].is_by_names
        ]
        if by_names:
            self.find_by_search(by_names)
        return ""
