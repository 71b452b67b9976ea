"""Reads Rattle source as far as the tools need it: what is code and what is text, where a brace
closes, and where the body of each function is. It parses no expressions.

    bodies_of("src/frame.rt", text)     # -> [Body, ..]

The unit tests are in tools/test_rattle_source.py.
"""

import re
from bisect import bisect_left
from dataclasses import dataclass

# Comments, strings and characters. A lifetime, as in `&'a u8`, has no closing quote.
TEXT = re.compile(
    r"""
      //[^\n]*
    | /\*.*?\*/
    | \bb?r(?P<hashes>\#*)".*?"(?P=hashes)
    | (?:\bb)?"(?:\\.|[^"\\])*"
    | (?:\bb)?'(?:\\.[^']*|[^'\\])'
    """,
    re.DOTALL | re.VERBOSE,
)
# What begins an impl, a trait or a macro, up to its brace.
BLOCK = re.compile(
    r"^[ ]*(?:pub(?:\([a-z]+\))? )?(impl\b|trait\b|macro_rules!)([^{;]*){", re.MULTILINE
)
# An impl's parameters, its type, and that type's arguments.
OF_TYPE = re.compile(r"\s*(?:<([^<>]*)>)?\s*([\w:]+)\s*(?:<(.*)>)?\s*", re.DOTALL)
FUNCTION = re.compile(r"\bfn\s+(\w+)")
# A function's attributes, each on a line of its own, and what precedes `fn` on its line.
ATTRIBUTES = re.compile(r"(?:^[ ]*#\[[^\n]*\n)*[^\n]*\Z", re.MULTILINE)
# A brace, or the semicolon that ends a function without a body. That of an array's type ends
# nothing.
BRACE_OR_END = re.compile(r"\{|;(?![^\[\]{}]*\])")
CLAUSE = re.compile(r"\b(requires|ensures|ghost)\b")


@dataclass(frozen=True)
class Block:
    """An impl, a trait or a macro: its first byte, the one after its last, and the name by which
    the prover knows it. `is_plain` if it is an impl without a trait, for a type of the same file,
    whatever the type's parameters are."""

    start: int
    end: int
    name: str
    is_plain: bool


@dataclass(frozen=True)
class Body:
    """A function's body: its file, the byte of its opening brace and the one after its closing
    brace, the function's first line (that of its attributes) and last line, and its name.

    `place` is the function's path below the crate, as the prover has it: `module::Type::name`.
    `words` are the names in the body. `can_be_left_out` if the place is certain, and neither a
    constant nor a cycle of calls needs the body."""

    path: str
    start: int
    end: int
    first_line: int
    last_line: int
    name: str
    place: str
    words: frozenset
    can_be_left_out: bool

    @property
    def proof(self):
        """The folder below the crate in which the function's hand-written proof is."""
        return f"proofs/{self.place.replace('::', '/')}"


def masked(text):
    """Returns the text with spaces in place of comments, strings and characters. Each line feed
    stays."""
    return TEXT.sub(lambda found: re.sub(r"[^\n]", " ", found[0]), text)


def end_of_braces(code, start):
    """Returns the position after the brace that closes the one at `start`, or None. `code` is
    masked."""
    depth = 0
    for brace in re.compile(r"[{}]").finditer(code, start):
        depth += 1 if brace[0] == "{" else -1
        if depth == 0:
            return brace.end()
    return None


def without_generics(code):
    """Returns the code without what is between angle brackets."""
    code = code.replace("->", "  ")
    while (shorter := re.sub(r"<[^<>]*>", "", code)) != code:
        code = shorter
    return code


def without_where(head):
    """Returns the head of a block without its `where` clause."""
    return re.split(r"\bwhere\b", head)[0]


def names_in(code):
    """Returns the names in a type or among generics, without lifetimes."""
    return re.findall(r"(?<!')\b[A-Za-z_]\w*", code)


def name_of_block(keyword, head):
    """Returns the name by which the prover knows a block: `Type`, `TraitType`, or the trait's own
    name. `head` is what is between the keyword and the brace."""
    parts = [part.strip() for part in re.split(r"\bfor\b", without_where(without_generics(head)))]
    if keyword == "trait":
        parts = [part.split(":")[0].strip() for part in parts]
    return "".join(part.rsplit("::", 1)[-1] for part in reversed(parts))


def arguments_of_type(head):
    """Returns the names among the arguments of an impl's type, if some are no parameters of the
    impl, as `WT` of `<K> Stream<K, WT>`: then the prover has all of them in the block's name."""
    if not (parts := OF_TYPE.fullmatch(without_where(head))):
        return []
    arguments = names_in(parts[3] or "")
    return [] if set(arguments) <= set(names_in(parts[1] or "")) else arguments


def blocks_of(code):
    """Returns the blocks of masked code, in the order in which they begin."""
    blocks = []
    for found in BLOCK.finditer(code):
        keyword, head = found[1], found[2]
        name = name_of_block(keyword, head)
        is_declared_here = re.search(rf"\b(?:struct|enum)\s+{re.escape(name)}\b", code)
        is_plain = (
            keyword == "impl"
            and not re.search(r"\bfor\b", without_generics(head))
            and bool(is_declared_here)
        )
        if is_plain and (arguments := arguments_of_type(head)):
            name, is_plain = "+".join([name, *arguments]), False
        if end := end_of_braces(code, found.end() - 1):
            blocks.append(Block(found.start(), end, name, is_plain))
    return blocks


def place_of(path, blocks, name):
    """Returns a function's path below its crate, as the prover has it, or that of its module where
    it has no such path, as within a macro. The blocks are those around it, the innermost last."""
    parts = path.removeprefix("src/").removesuffix(".rt").split("/")
    module = [part for part in parts if part not in ("lib", "main", "mod")]
    owner = [blocks[-1].name] if blocks else []
    if owner and not re.fullmatch(r"[\w+]+", owner[0]):
        return "::".join(module)
    return "::".join([*module, *owner, name])


def braces_of_body(code, start):
    """Returns the bounds of the body of the function whose parameters begin at `start`, or None if
    it has none. Before the body's brace are its clauses, each with braces of its own."""
    while (opening := BRACE_OR_END.search(code, start)) and opening[0] == "{":
        if not (end := end_of_braces(code, opening.start())):
            return None
        if not CLAUSE.search(code, start, opening.start()):
            return opening.start(), end
        start = end
    return None


def bodies_of(path, text):
    """Returns the bodies of the functions of a source, in the order in which the functions begin,
    so a function that is inside another comes after it."""
    code = masked(text)
    blocks = blocks_of(code)
    line_feeds = [found.start() for found in re.finditer("\n", text)]
    bodies = []
    for function in FUNCTION.finditer(code):
        if not (braces := braces_of_body(code, function.end())):
            continue
        start, end = braces
        # (the prover gives some goals the line of the function's first attribute)
        head = ATTRIBUTES.search(code, 0, function.start())
        first_line, last_line = (bisect_left(line_feeds, at) + 1 for at in (head.start(), end - 1))
        around = [block for block in blocks if block.start <= function.start() < block.end]
        is_needed = re.search(r"#\[cycle|\bconst\b", head[0])
        bodies.append(
            Body(
                path=path,
                start=start,
                end=end,
                first_line=first_line,
                last_line=last_line,
                name=function[1],
                place=place_of(path, around, function[1]),
                words=frozenset(re.findall(r"\w+", code[start:end])),
                can_be_left_out=all(block.is_plain for block in around) and not is_needed,
            )
        )
    return bodies
