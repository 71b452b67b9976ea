"""The tables of registered numbers in `crates/vesgrauf_registry`, as their sources have them.

    for row in tables()["frames"]:
        print(row.number, row.name, row.constant, row.source)

A row is a literal `Row { .. }`, and the comment above it says where the standards have it.
"""

import re
from dataclasses import dataclass
from pathlib import Path

SOURCES = Path(__file__).resolve().parent.parent / "crates/vesgrauf_registry/src"
# Each table: what the names of its constants begin with, and what of a row's name they leave out.
TABLES = {
    "frames": ("FRAME_", ""),
    "streams": ("STREAM_", ""),
    "settings": ("SETTING_", "SETTINGS_"),
    "capsules": ("CAPSULE_", ""),
    "codes": ("", ""),
}
TABLE = re.compile(
    r"^pub static \w+: \[Row<\w+>; (\d+)\] = \[\n(.*?)^\];", re.MULTILINE | re.DOTALL
)
ROW = re.compile(
    r"    // (?P<source>.*)\n"
    r"    Row \{\n"
    r"        number: (?P<number>0x[0-9a-f_]+),\n"
    r'        name: "(?P<name>[^"\n]*)",\n'
    r'        c_name: CName::(?P<form>Same|Absent|Other\("(?P<other>\w+)"\)),\n'
    r"(?P<columns>        columns: .*\n(?:            .*\n|        \},\n)*)"
    r"    \},\n"
)


@dataclass(frozen=True)
class Row:
    """A registered number. `constant` is the name of its constant, without `WT_`, or None."""

    number: int
    name: str
    constant: str | None
    source: str
    columns: str


def constant_of(table, found):
    """Returns the name of a row's constant, or None."""
    prefix, left_out = TABLES[table]
    if found["form"] == "Absent":
        return None
    return prefix + (found["other"] or found["name"].removeprefix(left_out))


def rows_in(table, text):
    """Returns the rows of a table whose source has this text."""
    tables = TABLE.findall(text)
    if len(tables) != 1:
        raise ValueError(f"{table}: {len(tables)} tables")
    count, items = int(tables[0][0]), tables[0][1]
    rows, at = [], 0
    while at < len(items):
        found = ROW.match(items, at)
        if not found:
            raise ValueError(f"{table}: no row at {items[at:at + 60]!r}")
        at = found.end()
        constant = constant_of(table, found)
        number = int(found["number"].replace("_", ""), 16)
        rows.append(Row(number, found["name"], constant, found["source"], found["columns"]))
    constants = [row.constant for row in rows if row.constant]
    if len(rows) != count or len(set(constants)) != len(constants):
        raise ValueError(f"{table}: {len(rows)} rows for {count}, or a constant is there twice")
    return rows


def tables():
    """Returns the rows of each table."""
    return {
        table: rows_in(table, (SOURCES / f"{table}.rt").read_text(encoding="utf-8"))
        for table in TABLES
    }
