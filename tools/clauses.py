"""Finds the contracts of the functions that others may call, and the definitions of specs, and
compares those of two revisions. It stands on tools/rattle_source.py and tools/rattle_items.py.

    old = functions_of("crates/wtp_core/src/ids.rt", text)    # -> [Function, ..]
    report = compare(old, new, Names([("Telling", "HasModel")]))
    old = definitions_of("crates/wtp_core/specs/Ids.antt", text)    # -> [Definition, ..]
    pairs = redefined(old, new, Names())

The unit tests are in tools/test_clauses.py.
"""

import re
from collections import defaultdict
from dataclasses import dataclass, field

from rattle_items import ITEM, end_of_item, type_and_trait, without_blanks
from rattle_source import end_of_braces, masked

# A clause up to its brace: its kind, and its label if it has one.
CLAUSE = re.compile(r"\b(requires|ensures)\b\s*(\w*)\s*\{")
COMMENT = re.compile(r"//[^\n]*|/\*.*?\*/", re.DOTALL)
DEFINITION = re.compile(r"^(?:[a-z]+ )*pub (?:data |record )?(?!use |mod )([A-Za-z_][\w']*)", re.M)
TOKEN = re.compile(r"\w+|[^\w\s]")


@dataclass(frozen=True)
class Clause:
    """A clause of a contract: `requires` or `ensures`, its label or the empty text, and its fact in
    one line."""

    kind: str
    label: str
    fact: str

    def __str__(self):
        return " ".join(part for part in (self.kind, self.label, f"{{ {self.fact} }}") if part)


@dataclass(frozen=True)
class Definition:
    """A definition of specs: its file, its name, and its text in one line, without comments."""

    path: str
    name: str
    text: str

    def __str__(self):
        return f"{self.path}: {self.name}"


@dataclass(frozen=True)
class Function:
    """A function that others may call: its file, its type and trait or empty texts, its name and
    its clauses. `is_inherited` if a trait's contract binds it, as in an impl of the trait."""

    path: str
    owner: str
    trait: str
    name: str
    clauses: tuple
    is_inherited: bool = False

    @property
    def ensures(self):
        return [clause for clause in self.clauses if clause.kind == "ensures"]

    def __str__(self):
        owner = f"<{self.owner} as {self.trait}>" if self.is_inherited else self.owner
        return f"{self.path}: {owner + '::' if owner else ''}{self.name}"


def clauses_in(text, code, start, end):
    """Returns the clauses of a function whose signature and contract are from `start` to `end`."""
    clauses = []
    while found := CLAUSE.search(code, start, end):
        start = end_of_braces(code, found.end() - 1)
        fact = COMMENT.sub(" ", text[found.end() : start - 1])
        clauses.append(Clause(found[1], found[2], " ".join(fact.split())))
    return tuple(clauses)


def functions_of(path, text):
    """Returns the functions of a source that others may call: those that are `pub`, and those of
    traits that are `pub` and of impls of traits."""
    code, found = masked(text), []

    def add_from(start, end, owner, trait, is_open):
        while item := ITEM.search(code, start, end):
            kind, at = item["kind"], item.start("kind")
            body, start = end_of_item(code, kind, at)
            if kind == "fn" and (is_open or item["public"]):
                head_end = body[0] - 1 if body else start
                clauses = clauses_in(text, code, at, head_end)
                name = re.match(r"\s*(\w+)", code[item.end() :])[1]
                found.append(Function(path, owner, trait, name, clauses, is_open and bool(trait)))
            elif kind == "trait" and body:
                name = re.match(r"\s*(\w+)", code[item.end() :])[1]
                add_from(*body, name, "", bool(item["public"]))
            elif kind == "impl" and body:
                of_type, of_trait = type_and_trait(without_blanks(text[at : body[0] - 1]))
                add_from(*body, of_type, of_trait, bool(of_trait))
            elif kind == "mod" and body:
                add_from(*body, owner, trait, False)

    add_from(0, len(code), "", "", False)
    return found


def definitions_of(path, text):
    """Returns the public definitions of a file of specs."""
    lines = [line.split(" -- ")[0] for line in text.split("\n") if not line.startswith("--")]
    code = re.sub(r"^(?:pub )?use [^\n]*", "", "\n".join(lines), flags=re.MULTILINE)
    found = list(DEFINITION.finditer(code))
    ends = [following.start() for following in found[1:]] + [len(code)]
    return [
        Definition(path, one[1], " ".join(code[one.start() : end].split()))
        for one, end in zip(found, ends)
    ]


class Names:
    """Which words of the old revision may be which of the new one. A word may have several."""

    def __init__(self, pairs=()):
        self.news = defaultdict(set)
        for old, new in pairs:
            self.news[old].add(new)

    def is_same(self, old, new):
        """Returns whether two texts are the same but for blanks and renamed words."""
        if old == new:
            return True
        olds, news = TOKEN.findall(old), TOKEN.findall(new)
        return len(olds) == len(news) and all(
            a == b or b in self.news.get(a, ()) for a, b in zip(olds, news)
        )

    def is_same_clause(self, old, new):
        """Returns whether two clauses say the same. Labels do not count."""
        return old.kind == new.kind and self.is_same(old.fact, new.fact)

    def is_same_function(self, old, new, place):
        """Returns whether two functions have the same type, trait and name, and are in one place by
        a function of their paths."""
        return all(
            self.is_same(before, after)
            for before, after in (
                (old.name, new.name),
                (old.owner, new.owner),
                (old.trait, new.trait),
                (place(old.path), place(new.path)),
            )
        )


@dataclass
class Report:
    """What comparing two revisions found. `gone` has functions; `lost` pairs of a new function and
    an old clause; `changed` triples of a new function, an old and a new clause; `required` pairs of
    a new function and a new `requires`; `compared` is the number of pairs of functions."""

    compared: int = 0
    gone: list = field(default_factory=list)
    lost: list = field(default_factory=list)
    changed: list = field(default_factory=list)
    required: list = field(default_factory=list)


def pairs_of(olds, news, names):
    """Pairs each old function with the new one, or with None: in its file, else in its crate, else
    in any, by type, trait and name. If several have the same, all of them are paired in their order
    if there are as many as before, and none otherwise."""
    paired, left = {}, list(news)
    for place in (lambda path: path, lambda path: path.split("/src/")[0], lambda path: ""):
        unpaired = [old for old in olds if id(old) not in paired]
        for old in unpaired:
            fitting = [new for new in left if names.is_same_function(old, new, place)]
            alike = [
                one
                for one in unpaired
                if fitting and names.is_same_function(one, fitting[0], place)
            ]
            if len(alike) == len(fitting):
                paired |= {id(one): new for one, new in zip(alike, fitting)}
                left = [new for new in left if new not in fitting]
    return [(old, paired.get(id(old))) for old in olds]


def compare_clauses(old, new, names, report):
    """Adds to the report how the clauses of a function differ. A clause that is not there as it
    was is paired with one of its label, and the rest in their order."""
    olds, news = list(old.clauses), list(new.clauses)
    tests = [
        names.is_same_clause,
        lambda a, b: a.kind == b.kind and a.label and names.is_same(a.label, b.label),
        lambda a, b: a.kind == b.kind and a.label == b.label,
    ]
    for test in tests:
        for clause in list(olds):
            other = next((other for other in news if test(clause, other)), None)
            if other:
                olds.remove(clause)
                news.remove(other)
                if test != tests[0]:
                    report.changed.append((new, clause, other))
    report.lost += [(new, clause) for clause in olds]
    report.required += [(new, clause) for clause in news if clause.kind == "requires"]


def compare(olds, news, names):
    """Compares the functions of two revisions. Returns the report."""
    report = Report()
    for old, new in pairs_of(olds, news, names):
        if new is None:
            report.gone.append(old)
        else:
            report.compared += 1
            compare_clauses(old, new, names, report)
    return report


def redefined(olds, news, names):
    """Returns the pairs of an old and a new definition of one name whose texts differ, and each old
    one that has no new one, with None. A definition may have moved to another file."""
    by_name, differing = defaultdict(list), []
    for new in news:
        by_name[new.name].append(new)
    for old in olds:
        named = [old.name, *names.news.get(old.name, ())]
        same = [new for name in named for new in by_name[name]]
        if not any(names.is_same(old.text, new.text) for new in same):
            file = old.path.rsplit("/", 1)[-1]
            near = [new for new in same if new.path == old.path]
            near = near or [new for new in same if new.path.rsplit("/", 1)[-1] == file] or same
            differing.append((old, near[0] if near else None))
    return differing
