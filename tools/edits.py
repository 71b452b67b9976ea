"""The edits in `crates/NAME/mutants/`, each of which makes a mutant of a function
of that crate, and copies of the crate in which some of them are made.

An edit is a file of lines: `file: PATH`, then pairs `old: TEXT` and `new: TEXT`, where the old text
is in the file exactly once.
"""

import os
import re
import shutil
from dataclasses import dataclass

from rattle_source import bodies_of

# Where a declaration of a proof file begins; it goes on to the next one.
DECLARED = re.compile(r"^(?:(?:pub|abbrev|data|record) )*([^\s:]+) :", re.MULTILINE)


@dataclass(frozen=True)
class Change:
    """A text of a file, at a byte, and the text that takes its place."""

    path: str
    start: int
    old: str
    new: str

    @property
    def end(self):
        return self.start + len(self.old)


@dataclass(frozen=True)
class Edit:
    """An edit. It has no bodies if it has to be tried alone, since it changes more than the bodies
    of functions, and no changes if it cannot be made."""

    name: str
    changes: tuple
    bodies: frozenset

    def places(self):
        return {body.place for body in self.bodies}


def pairs_of(text):
    """Returns the file, the old text and the new text of each pair of an edit."""
    path, old, pairs = "", None, []
    for line in text.split("\n"):
        key, _, rest = line.partition(":")
        rest = rest.removeprefix(" ")
        if key == "file":
            path = rest.strip()
        elif key == "old":
            old = rest
        elif key == "new" and old is not None:
            pairs.append((path, old, rest))
            old = None
    return pairs


def read_edit(folder, name):
    """Returns the edit of that name in `folder/edits`, as it applies to the sources in `folder`."""
    changes, bodies, is_outside = [], set(), False
    for path, old, new in pairs_of((folder / "edits" / name).read_text(encoding="utf-8")):
        text = (folder / path).read_text(encoding="utf-8")
        if text.count(old) != 1:
            return Edit(name, (), frozenset())
        change = Change(path, text.find(old), old, new)
        changes.append(change)
        around = [
            body
            for body in (bodies_of(path, text) if path.startswith("src/") else [])
            if body.start <= change.start and change.end <= body.end
        ]
        if around:
            bodies.add(max(around, key=lambda body: body.start))
        else:
            is_outside = True
    return Edit(name, tuple(changes), frozenset() if is_outside else frozenset(bodies))


def with_changes(text, changes):
    """Returns the text of a file with the changes made."""
    for change in sorted(changes, key=lambda change: change.start, reverse=True):
        text = text[: change.start] + change.new + text[change.end :]
    return text


def make(folder, edits):
    """Makes the edits in a crate's folder."""
    changes = [change for edit in edits for change in edit.changes]
    for path in {change.path for change in changes}:
        file = folder / path
        text = file.read_text(encoding="utf-8")
        file.write_text(
            with_changes(text, [change for change in changes if change.path == path]),
            encoding="utf-8",
        )


def copied(folder, name):
    """Copies a crate's folder beside it, without its edits. Returns the copy's folder."""
    copy = folder.with_name(name)
    shutil.rmtree(copy, ignore_errors=True)
    shutil.copytree(folder, copy, ignore=shutil.ignore_patterns("edits"))
    return copy


def leave_out(copy, crate, body, text):
    """Puts a hole in place of the proof of a function, and returns the change that leaves its body
    out, with as many lines as before."""
    proof = copy / body.proof
    shutil.rmtree(proof, ignore_errors=True)
    proof.mkdir(parents=True)
    goals = f"use Rattle.{crate}.proofs.{body.place.replace('::', '.')}.Goals as goal"
    hole = "pub unreachable-requires : goal.unreachable-requires\nunreachable-requires = ?"
    (proof / "Answers.antt").write_text(f"{goals}\n\n{hole}\n", encoding="utf-8")
    old = text[body.start : body.end]
    return Change(body.path, body.start, old, "{ unreachable!()" + "\n" * old.count("\n") + "}")


def copy_without_others(folder, crate, edits, made):
    """Copies a crate without the bodies of the functions that these edits do not change, and with
    some of the edits made. Returns the copy's folder."""
    copy = copied(folder, f"{folder.name}-without")
    kept = [body for edit in edits for body in edit.bodies]
    for file in sorted((folder / "src").rglob("*.rt")):
        path = str(file.relative_to(folder))
        text = file.read_text(encoding="utf-8")
        changes = [change for edit in made for change in edit.changes if change.path == path]
        end = 0
        # (a body may contain functions of its own)
        for body in bodies_of(path, text):
            is_kept = any(
                body.path == other.path and body.start <= other.start < body.end for other in kept
            )
            if body.can_be_left_out and body.start >= end and not is_kept:
                changes.append(leave_out(copy, crate, body, text))
                end = body.end
        (copy / path).write_text(with_changes(text, changes), encoding="utf-8")
    return copy


def drop_answers(folder, body, names):
    """Takes the answers of these names out of the proof of a function. Returns whether all of them
    were there."""
    file = folder / body.proof / "Answers.antt"
    text = file.read_text(encoding="utf-8") if file.exists() else ""
    starts = [found.start() for found in DECLARED.finditer(text)] + [len(text)]
    declared = {
        DECLARED.match(text[start:])[1]: (start, end) for start, end in zip(starts, starts[1:])
    }
    for start, end in sorted((declared[name] for name in names if name in declared), reverse=True):
        text = text[:start] + text[end:]
    if names and file.exists():
        file.write_text(text, encoding="utf-8")
    return names <= set(declared)


def names_of(top, crate, is_gate):
    """Returns the names of a crate's edits: of those in `gate/`, or of all."""
    folder = top / "crates" / crate / "mutants"
    return sorted(
        file.name
        for file in [*folder.glob("gate/*.edit"), *([] if is_gate else folder.glob("*.edit"))]
    )


def copy_crate(top, crate, folder):
    """Copies a crate to a folder, with all of its edits in `folder/edits`."""
    ignored = shutil.ignore_patterns("out", "mutants")
    shutil.copytree(top / "crates" / crate, folder, ignore=ignored)
    (folder / "edits").mkdir()
    for file in (top / "crates" / crate / "mutants").rglob("*.edit"):
        shutil.copy(file, folder / "edits")


def together(edits):
    """Returns edits of different functions, the first of each function, to be made in one copy. A
    function that calls one which is refused is not judged, so neither of two calls the other, as
    far as names tell."""
    bodies, batch = set(), []
    for edit in edits:
        others = [(one, other) for one in edit.bodies for other in bodies]
        if not any(
            one == other or one.name in other.words or other.name in one.words
            for one, other in others
        ):
            bodies |= edit.bodies
            batch.append(edit)
    return batch


def size_of(top, crate):
    """Returns how many bytes the sources and the proofs of a crate have."""
    folder = top / "crates" / crate
    files = [*(folder / "src").rglob("*"), *(folder / "proofs").rglob("*")]
    return sum(os.path.getsize(file) for file in files)
