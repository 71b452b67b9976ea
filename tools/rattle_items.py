"""Finds the public items of Rattle crates: what each module declares and re-exports, and with which
signature and description. It stands on tools/rattle_source.py, and parses no expressions.

    api = public_api("wtransport_proto", {"wtransport_proto": Path("crates/wtransport_proto/src"),
    ..}) # -> {("bytes",): (Module, [Entry, ..]), ..}

The unit tests are in tools/test_rattle_items.py.
"""
import re
from dataclasses import dataclass, field
from functools import cached_property

from rattle_source import BRACE_OR_END, CLAUSE, end_of_braces, masked, without_generics

ITEM = re.compile(
    r"^[ ]*(?P<public>pub )?(?P<private>pub\([a-z]+\) )?(?:(?:unsafe|extern|const)\s+)*"
    r"(?P<kind>fn|struct|enum|trait|const|static|type|mod|use|impl)\b",
    re.MULTILINE,
)
# Lines of documentation and attributes before an item.
HEAD = re.compile(r"((?:^[ ]*(?:///[^\n]*|#\[[^\n]*)\n|^[ ]+[^\n]*\]\n)*)\Z", re.MULTILINE)
# A variant of an enum, with its values or fields.
VARIANT = re.compile(r"^ {4}([A-Z]\w*(?:\([^\n]*\)(?=,)|\s*\{[^{}]*\})?)", re.MULTILINE)
SENTENCE = re.compile(r"(.*?\.)(?=\s+[A-Z`\[])")
# Traits that say nothing of what a type is for, and are not named.
COMMON = {
    "Debug",
    "Display",
    "PartialEq",
    "Eq",
    "Clone",
    "Copy",
    "Drop",
    "Model",
    "Error",
    "Sealed",
}


@dataclass(frozen=True)
class Item:
    """An item of a module, a trait or an impl: its kind, name, signature and description, and where
    its body is in the source, if it has one."""

    kind: str
    name: str
    is_public: bool
    signature: str
    description: str
    body: tuple = None


@dataclass
class Entry:
    """A public item by the path that a user writes, below its module, with the items in it, and the
    traits that it implements."""

    item: Item
    members: list = field(default_factory=list)
    traits: list = field(default_factory=list)


def first_sentence(text):
    """Returns the first sentence of a text in lines, in one line."""
    text = " ".join(text.split("\n\n")[0].split())
    found = SENTENCE.match(text)
    text = found[1] if found else text
    return re.sub(r"\[(`[^`]*`)\](?:\([^)]*\))?", r"\1", text)


def description_before(text, start):
    """Returns the first sentence of the documentation before an item."""
    head = HEAD.search(text, 0, start)[1]
    lines = [line.strip().removeprefix("///") for line in head.split("\n")]
    lines = [line for line in lines if line == "" or line.startswith(" ")]
    return first_sentence("\n".join(line.strip() for line in lines).strip())


def end_of_item(code, kind, start):
    """Returns the bounds of an item's body, or None, and where the item ends."""
    at = start
    while opening := BRACE_OR_END.search(code, at):
        if opening[0] == ";":
            return None, opening.end()
        end = end_of_braces(code, opening.start())
        if end is None:
            break
        is_clause = kind == "fn" and CLAUSE.search(code, at, opening.start())
        if not is_clause and kind not in ("const", "static", "use", "type"):
            return (opening.start() + 1, end - 1), end
        at = end
    return None, len(code)


def without_blanks(text):
    """Returns a signature in one line."""
    text = re.sub(r"\s+", " ", text).strip()
    return re.sub(r",? ([)\]])", r"\1", re.sub(r"([(\[]) ", r"\1", text)).rstrip(",")


def names_inside(code, kind, body):
    """Returns what the signature of an enum or a struct has in braces: variants with their values,
    public fields."""
    inside = code[slice(*body)]
    if kind == "enum":
        names = [without_blanks(name).replace(", }", " }") for name in VARIANT.findall(inside)]
    else:
        names = [
            without_blanks(name) for name in re.findall(r"^ *pub (\w+: [^\n]+),", inside, re.M)
        ]
    return f" {{ {', '.join(names)} }}" if names else ""


def signature_of(text, code, kind, start, end, body):
    """Returns the signature of an item, whose keyword is at `start`."""
    if kind == "fn":
        stops = [
            found.start()
            for found in (CLAUSE.search(code, start, end), BRACE_OR_END.search(code, start, end))
            if found
        ]
        return without_blanks(text[start : min(stops)])
    if kind in ("const", "static"):
        return without_blanks(text[start : end - 1].split(" = ")[0])
    if body:
        return without_blanks(text[start : body[0] - 1]) + names_inside(code, kind, body)
    signature = without_blanks(text[start : end - 1])
    # (fields of a tuple are named only if they are public)
    return signature.split("(")[0] if kind == "struct" and "(pub " not in signature else signature


def items_in(text, code, start=0, end=None):
    """Returns the items of a module, a trait or an impl, whose bytes are from `start` to `end`."""
    items, end = [], len(code) if end is None else end
    while found := ITEM.search(code, start, end):
        kind, at = found["kind"], found.start("kind")
        body, start = end_of_item(code, kind, at)
        name = re.match(r"\s*(\w*)", code[found.end() :])[1]
        items.append(
            Item(
                kind,
                name,
                bool(found["public"]),
                signature_of(text, code, kind, at, start, body),
                description_before(text, found.start()),
                body,
            )
        )
    return items


def uses_in(signature):
    """Returns what a `use` brings in: the name, and the path to it."""

    def expand(prefix, tree):
        if group := re.fullmatch(r"(.*?)(?:::)?\{(.*)\}", tree):
            inner = [part for part in group[1].split("::") if part]
            for part in re.split(r",\s*(?![^{]*\})", group[2]):
                if part.strip():
                    yield from expand([*prefix, *inner], part.strip())
            return
        path, _, name = tree.partition(" as ")
        whole = [*prefix, *path.split("::")]
        whole = whole[:-1] if whole[-1] == "self" else whole
        yield name or whole[-1], whole

    return list(expand([], signature.removeprefix("use ")))


class Module:
    """A module: its crate, its path below it, and its source, of which it may be a part."""

    def __init__(self, crate, path, text, bounds=(0, None)):
        self.crate, self.path, self.text, self.bounds = crate, path, text, bounds
        self.code = masked(text)

    @cached_property
    def items(self):
        return items_in(self.text, self.code, *self.bounds)

    @property
    def description(self):
        """The first sentence of the module's documentation."""
        if self.bounds[0]:
            declared = re.compile(r"^[ ]*(?:pub )?mod \w+\s*\{\Z", re.MULTILINE)
            start = declared.search(self.text, 0, self.bounds[0]).start()
            return description_before(self.text, start)
        lines = re.match(r"(?://!.*\n)*", self.text)[0].split("\n")
        return first_sentence("\n".join(line[4:] for line in lines))


class Crates:
    """Crates by their names, with the folders of their sources."""

    def __init__(self, folders):
        self.folders, self.modules = folders, {}

    def module(self, crate, path):
        """Returns a module, or None."""
        if (crate, path) not in self.modules:
            self.modules[crate, path] = self.read_module(crate, path)
        return self.modules[crate, path]

    def read_module(self, crate, path):
        file = self.folders[crate].joinpath(*path or ["lib"]).with_suffix(".rt")
        if file.exists():
            return Module(crate, path, file.read_text(encoding="utf-8"))
        around = self.module(crate, path[:-1]) if path else None
        for item in around.items if around else []:
            if item.kind == "mod" and item.name == path[-1] and item.body:
                return Module(crate, path, around.text, item.body)
        return None

    def find(self, module, path):
        """Returns the module, or the module and the item, that a path means in a module, or
        None."""
        first, *rest = path
        if first == "super":
            return self.find(self.module(module.crate, module.path[:-1]), rest)
        if first == "crate" or first in self.folders:
            module = self.module(module.crate if first == "crate" else first, ())
            return self.find(module, rest) if rest else module
        for item in module.items:
            if item.kind == "mod" and item.name == first:
                below = self.module(module.crate, (*module.path, first))
                return self.find(below, rest) if rest else below
            if item.kind in ("struct", "enum", "trait", "type", "fn", "const") and not rest:
                if item.name == first:
                    return module, item
        for item in module.items:
            for name, to in uses_in(item.signature) if item.kind == "use" else []:
                if name == first and to[0] != first:
                    return self.find(module, [*to, *rest])
                if name == first and to[0] in self.folders:
                    return self.find(module, [*to, *rest])
        return None

    def all_modules(self, crate):
        """Yields the modules of a crate that are files, each before those below it."""
        folder = self.folders[crate]
        files = [file.relative_to(folder).with_suffix("").parts for file in folder.rglob("*.rt")]
        for path in sorted(files):
            yield self.module(crate, () if path == ("lib",) else path)


def type_and_trait(head):
    """Returns the name of the type that an impl is of, and its trait, or the empty text."""
    head = re.sub(r"^impl(<(?:[^<>]|<[^<>]*>)*>)?", "", head).split(" where ")[0].strip()
    trait, _, owner = head.rpartition(" for ")
    trait = re.sub(r"\b[\w:]*::(?=\w)", "", trait)
    return without_generics(owner).strip().split("::")[-1], trait


def is_hidden(found, entries):
    """Returns whether what was found is an item of these crates that no user can name."""
    return isinstance(found, tuple) and id(found[1]) not in entries


def add_impls(crates, crate, entries):
    """Adds to the entries of a crate's items what the impls of that crate have."""
    for module in crates.all_modules(crate):
        for item in module.items:
            if item.kind != "impl" or not item.body:
                continue
            name, trait = type_and_trait(item.signature)
            owner = crates.find(module, [name]) if re.fullmatch(r"\w+", name) else None
            entry = entries.get(id(owner[1])) if isinstance(owner, tuple) else None
            if not entry:
                continue
            name = without_generics(trait)
            if trait and name not in COMMON:
                # (a trait of these crates, and the type that it converts, may not be public)
                words = [name, *re.findall(r"^From<(\w+)>$", trait)]
                declared = [found for word in words if (found := crates.find(module, [word]))]
                if not any(is_hidden(found, entries) for found in declared):
                    entry.traits.append(trait)
            elif not trait:
                inside = items_in(module.text, module.code, *item.body)
                entry.members += [member for member in inside if member.is_public]


def public_items(crates, module, path, found):
    """Adds the public items of a module and of those in it to `found`, each with the shortest
    path."""
    for item in module.items:
        if not item.is_public:
            continue
        if item.kind == "mod":
            named = [(item.name, crates.module(module.crate, (*module.path, item.name)))]
        elif item.kind == "use":
            named = [(name, crates.find(module, to)) for name, to in uses_in(item.signature)]
        else:
            named = [(item.name, (module, item))]
        for name, target in named:
            if isinstance(target, Module):
                public_items(crates, target, (*path, name), found)
            elif target:
                found.setdefault(id(target[1]), (path, *target))
                if len(path) < len(found[id(target[1])][0]):
                    found[id(target[1])] = (path, *target)


def public_api(crate, folders):
    """Returns the public modules of a crate that have items: by its path each module and its
    entries."""
    crates, found = Crates(folders), {}
    public_items(crates, crates.module(crate, ()), (), found)
    entries = {key: Entry(item) for key, (_, _, item) in found.items()}
    for name in sorted({module.crate for _, module, _ in found.values()}):
        add_impls(crates, name, entries)
    api = {}
    for key, (path, module, item) in found.items():
        if item.kind == "trait":
            entries[key].members = items_in(module.text, module.code, *item.body)
        api.setdefault(path, []).append(entries[key])
    root = crates.module(crate, ())
    modules = {path: crates.find(root, path) if path else root for path in api}
    return {path: (modules[path], api[path]) for path in sorted(api)}
